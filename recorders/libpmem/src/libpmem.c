#include "libpmem.h"

#include "message.h"
#include "note.h"
#include "where.h"

#include <stdio.h>

void pmem_flush(const void *start, size_t length) {
    pmtrace_note_flush(PMTRACE_CALLER, start, length);
}

void pmem_deep_flush(const void *start, size_t length) {
    pmtrace_note_flush(PMTRACE_CALLER, start, length);
}

void pmem_drain(void) {
    pmtrace_note_drain(PMTRACE_CALLER);
}

int pmem_deep_drain(const void *start, size_t length) {
    (void)start;
    if (length > 0)
        pmtrace_note_drain(PMTRACE_CALLER);
    return 0;
}

void pmem_persist(const void *start, size_t length) {
    pmtrace_note_persist(PMTRACE_CALLER, start, length);
}

int pmem_deep_persist(const void *start, size_t length) {
    if (length > 0)
        pmtrace_note_persist(PMTRACE_CALLER, start, length);
    return 0;
}

int pmem_msync(const void *start, size_t length) {
    return pmtrace_note_msync(PMTRACE_CALLER, start, length);
}

int pmem_has_auto_flush(void) {
    return 0;
}

int pmem_has_hw_drain(void) {
    return 0;
}

void *pmem_memmove(void *to, const void *from, size_t length, unsigned flags) {
    return pmtrace_note_move(PMTRACE_CALLER, to, from, length, flags);
}

void *pmem_memcpy(void *to, const void *from, size_t length, unsigned flags) {
    return pmtrace_note_move(PMTRACE_CALLER, to, from, length, flags);
}

void *pmem_memset(void *to, int byte, size_t length, unsigned flags) {
    return pmtrace_note_set(PMTRACE_CALLER, to, byte, length, flags);
}

void *pmem_memmove_persist(void *to, const void *from, size_t length) {
    return pmtrace_note_move(PMTRACE_CALLER, to, from, length, 0);
}

void *pmem_memcpy_persist(void *to, const void *from, size_t length) {
    return pmtrace_note_move(PMTRACE_CALLER, to, from, length, 0);
}

void *pmem_memset_persist(void *to, int byte, size_t length) {
    return pmtrace_note_set(PMTRACE_CALLER, to, byte, length, 0);
}

void *pmem_memmove_nodrain(void *to, const void *from, size_t length) {
    return pmtrace_note_move(PMTRACE_CALLER, to, from, length, PMEM_F_MEM_NODRAIN);
}

void *pmem_memcpy_nodrain(void *to, const void *from, size_t length) {
    return pmtrace_note_move(PMTRACE_CALLER, to, from, length, PMEM_F_MEM_NODRAIN);
}

void *pmem_memset_nodrain(void *to, int byte, size_t length) {
    return pmtrace_note_set(PMTRACE_CALLER, to, byte, length, PMEM_F_MEM_NODRAIN);
}

const char *pmem_errormsg(void) {
    return pmtrace_last_message();
}

const char *pmem_check_version(unsigned major_required, unsigned minor_required) {
    if (major_required != PMEM_MAJOR_VERSION)
        pmtrace_message("libpmem major version mismatch (need %u, found %d)", major_required, PMEM_MAJOR_VERSION);
    else if (minor_required > PMEM_MINOR_VERSION)
        pmtrace_message("libpmem minor version mismatch (need %u, found %d)", minor_required, PMEM_MINOR_VERSION);
    else
        return NULL;
    return pmtrace_last_message();
}
