#include "note.h"
#include "pmem2.h"
#include "where.h"

#include <string.h>

/* --- where the cache line is what is flushed --- */

static void persist_lines(const void *start, size_t length) {
    pmtrace_note_persist(PMTRACE_CALLER, start, length);
}

static void flush_lines(const void *start, size_t length) {
    pmtrace_note_flush(PMTRACE_CALLER, start, length);
}

static void drain_lines(void) {
    pmtrace_note_drain(PMTRACE_CALLER);
}

static void *move_lines(void *to, const void *from, size_t length, unsigned flags) {
    return pmtrace_note_move(PMTRACE_CALLER, to, from, length, flags);
}

static void *set_lines(void *to, int byte, size_t length, unsigned flags) {
    return pmtrace_note_set(PMTRACE_CALLER, to, byte, length, flags);
}

/* --- where it is the page --- */

static void persist_pages(const void *start, size_t length) {
    (void)pmtrace_note_msync(PMTRACE_CALLER, start, length);
}

static void drain_pages(void) {
}

static void *move_pages(void *to, const void *from, size_t length, unsigned flags) {
    const char *label = PMTRACE_CALLER;
    pmtrace_note_move(label, to, from, length, PMEM2_F_MEM_NOFLUSH);
    if (!(flags & PMEM2_F_MEM_NOFLUSH))
        (void)pmtrace_note_msync(label, to, length);
    return to;
}

static void *set_pages(void *to, int byte, size_t length, unsigned flags) {
    const char *label = PMTRACE_CALLER;
    pmtrace_note_set(label, to, byte, length, PMEM2_F_MEM_NOFLUSH);
    if (!(flags & PMEM2_F_MEM_NOFLUSH))
        (void)pmtrace_note_msync(label, to, length);
    return to;
}

/* --- where nothing is flushed --- */

static void persist_bytes(const void *start, size_t length) {
    (void)start, (void)length;
    pmtrace_note_drain(PMTRACE_CALLER);
}

static void flush_bytes(const void *start, size_t length) {
    (void)start, (void)length;
}

static void *move_bytes(void *to, const void *from, size_t length, unsigned flags) {
    const char *label = PMTRACE_CALLER;
    pmtrace_note_move(label, to, from, length, PMEM2_F_MEM_NOFLUSH);
    if (!(flags & (PMEM2_F_MEM_NOFLUSH | PMEM2_F_MEM_NODRAIN)))
        pmtrace_note_drain(label);
    return to;
}

static void *set_bytes(void *to, int byte, size_t length, unsigned flags) {
    const char *label = PMTRACE_CALLER;
    pmtrace_note_set(label, to, byte, length, PMEM2_F_MEM_NOFLUSH);
    if (!(flags & (PMEM2_F_MEM_NOFLUSH | PMEM2_F_MEM_NODRAIN)))
        pmtrace_note_drain(label);
    return to;
}

/* --- which of them a mapping has, by its granularity --- */

pmem2_persist_fn pmem2_get_persist_fn(struct pmem2_map *map) {
    static const pmem2_persist_fn functions[] = {persist_bytes, persist_lines, persist_pages};
    return functions[map->granularity];
}

pmem2_flush_fn pmem2_get_flush_fn(struct pmem2_map *map) {
    static const pmem2_flush_fn functions[] = {flush_bytes, flush_lines, persist_pages};
    return functions[map->granularity];
}

pmem2_drain_fn pmem2_get_drain_fn(struct pmem2_map *map) {
    static const pmem2_drain_fn functions[] = {drain_lines, drain_lines, drain_pages};
    return functions[map->granularity];
}

pmem2_memmove_fn pmem2_get_memmove_fn(struct pmem2_map *map) {
    static const pmem2_memmove_fn functions[] = {move_bytes, move_lines, move_pages};
    return functions[map->granularity];
}

pmem2_memcpy_fn pmem2_get_memcpy_fn(struct pmem2_map *map) {
    return pmem2_get_memmove_fn(map);
}

pmem2_memset_fn pmem2_get_memset_fn(struct pmem2_map *map) {
    static const pmem2_memset_fn functions[] = {set_bytes, set_lines, set_pages};
    return functions[map->granularity];
}

int pmem2_deep_flush(struct pmem2_map *map, void *start, size_t length) {
    const char *first = start, *end = map->address + map->length;
    if (first < map->address || first > end || length > (size_t)(end - first))
        return pmtrace_fail(PMEM2_E_DEEP_FLUSH_RANGE, "%zu bytes at %p are not all in the mapping", length, start);
    if (map->anonymous)
        return pmtrace_fail(PMEM2_E_NOSUPP, "an anonymous mapping has nothing to flush");
    if (map->granularity == PMEM2_GRANULARITY_PAGE)
        return pmtrace_note_msync(PMTRACE_CALLER, start, length) == 0 ? 0 : pmtrace_fail_by_errno("msync");
    pmtrace_note_persist(PMTRACE_CALLER, start, length);
    return 0;
}
