#include "note.h"

#include "libpmem.h"
#include "message.h"
#include "pmtrace.h"
#include "pools.h"

#include <sys/mman.h>
#include <unistd.h>

/* From here on libpmem copies by non-temporal stores (libpmem(7), PMEM_MOVNT_THRESHOLD). */
enum { NONTEMPORAL_FROM = 256 };

void pmtrace_note_flush(const char *label, const void *start, size_t length) {
    if (!pmtrace_is_all(PMTRACE_VOLATILE, start, length))
        pmtrace_flush_at(label, PMTRACE_CLWB, start, length);
}

void pmtrace_note_drain(const char *label) {
    pmtrace_fence_at(label, PMTRACE_SFENCE);
}

void pmtrace_note_persist(const char *label, const void *start, size_t length) {
    if (pmtrace_is_all(PMTRACE_VOLATILE, start, length))
        pmtrace_note_drain(label);
    else
        pmtrace_persist_at(label, start, length);
}

/* Notes the flush of the pages of the range, so far as they are mapped. */
static void flush_pages(const char *label, const char *page, const void *start, size_t length) {
    const char *end = pmtrace_end_of_pages(start, length);
    if (end != NULL)
        pmtrace_note_flush(label, page, (size_t)(end - page));
    else
        pmtrace_note_flush(label, start, length);
}

int pmtrace_note_msync(const char *label, const void *start, size_t length) {
    size_t into_page = (uintptr_t)start % (size_t)sysconf(_SC_PAGESIZE);
    const char *page = (const char *)start - into_page;
    void *first = (void *)(uintptr_t)page;
    bool is_mapped = msync(first, into_page + length, MS_ASYNC) == 0;
    if (is_mapped && length > 0)
        flush_pages(label, page, start, length);
    if (!is_mapped || msync(first, into_page + length, MS_SYNC) != 0) {
        pmtrace_message_of_errno("msync");
        return -1;
    }
    if (length > 0)
        pmtrace_note_drain(label);
    return 0;
}

static bool is_nontemporal(size_t length, unsigned flags) {
    if (flags & (PMEM_F_MEM_NONTEMPORAL | PMEM_F_MEM_WC))
        return true;
    return length >= NONTEMPORAL_FROM && !(flags & (PMEM_F_MEM_TEMPORAL | PMEM_F_MEM_WB));
}

/* Notes the flush, which a non-temporal copy has with it, and the drain. */
static void finish(const char *label, const void *to, size_t length, unsigned flags) {
    bool flushes = !is_nontemporal(length, flags), drains = !(flags & PMEM_F_MEM_NODRAIN);
    if (flushes && drains)
        pmtrace_persist_at(label, to, length);
    else if (flushes)
        pmtrace_flush_at(label, PMTRACE_CLWB, to, length);
    else if (drains)
        pmtrace_note_drain(label);
}

/* After a copy to volatile memory, of which nothing is noted but the drain. */
static void *finish_volatile(const char *label, void *to, unsigned flags) {
    if (!(flags & (PMEM_F_MEM_NODRAIN | PMEM_F_MEM_NOFLUSH)))
        pmtrace_note_drain(label);
    return to;
}

static void check(unsigned flags) {
    static unsigned told;
    if ((flags & ~PMEM_F_MEM_VALID_FLAGS) != 0 && __atomic_exchange_n(&told, 1, __ATOMIC_RELAXED) == 0)
        pmtrace_warn("a copy has flags %#x, of which %#x are not known and left out", flags, flags & ~PMEM_F_MEM_VALID_FLAGS);
}

void *pmtrace_note_move(const char *label, void *to, const void *from, size_t length, unsigned flags) {
    check(flags);
    if (pmtrace_is_all(PMTRACE_VOLATILE, to, length))
        return finish_volatile(label, memmove(to, from, length), flags);
    if (flags & PMEM_F_MEM_NOFLUSH)
        return pmtrace_memmove_at(label, to, from, length);
    if (is_nontemporal(length, flags))
        pmtrace_memcpy_nontemporal_at(label, to, from, length);
    else
        pmtrace_memmove_at(label, to, from, length);
    finish(label, to, length, flags);
    return to;
}

void *pmtrace_note_set(const char *label, void *to, int byte, size_t length, unsigned flags) {
    check(flags);
    if (pmtrace_is_all(PMTRACE_VOLATILE, to, length))
        return finish_volatile(label, memset(to, byte, length), flags);
    if (flags & PMEM_F_MEM_NOFLUSH)
        return pmtrace_memset_at(label, to, byte, length);
    if (is_nontemporal(length, flags))
        pmtrace_memset_nontemporal_at(label, to, byte, length);
    else
        pmtrace_memset_at(label, to, byte, length);
    finish(label, to, length, flags);
    return to;
}
