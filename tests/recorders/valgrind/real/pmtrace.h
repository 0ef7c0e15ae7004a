/* A stand-in for recorders/c/pmtrace.h that records nothing: stores are plain stores, flushes and fences are instructions, claims
 * are requests of pmtrim-record. With it the recorders' examples run unmodified under pmtrim-record. */
#ifndef PMTRACE_H
#define PMTRACE_H

#include "pmtrim_record.h"
#include <stdbool.h>
#include <stddef.h>
#include <stdint.h>
#include <string.h>

#define PMTRACE_HERE ""
#define pmtrace_open(file, base, length, line_size) 0
#define pmtrace_close() 0
#define pmtrace_store(place, value) (*(volatile __typeof__(place) *)&(place) = (value))

static inline void pmtrace_fence(void) {
    __asm__ volatile("sfence" : : : "memory");
}

/* By words, as pmtrace.h notes a copy. */
static inline void pmtrace_copy(void *to, const void *from, size_t length) {
    volatile unsigned char *target = to;
    const unsigned char *source = from;
    while (length > 0) {
        size_t piece = 8 - (uintptr_t)target % 8;
        if (piece == 8 && length >= 8)
            __asm__ volatile("mov (%0), %%rax\n mov %%rax, (%1)" : : "r"(source), "r"(target) : "rax", "memory");
        else {
            piece = piece < length ? piece : length;
            __asm__ volatile("rep movsb" : : "S"(source), "D"(target), "c"(piece) : "memory");
        }
        target += piece;
        source += piece;
        length -= piece;
    }
}
#define pmtrace_memcpy(to, from, length) pmtrace_copy(to, from, length)

static inline void pmtrace_lines(const void *start, size_t length) {
    uintptr_t line = (uintptr_t)start & ~(uintptr_t)63;
    for (; line < (uintptr_t)start + length; line += 64)
        __asm__ volatile("clwb (%0)" : : "r"(line) : "memory");
}
#define pmtrace_clwb(start, length) pmtrace_lines(start, length)
#define pmtrace_sfence() pmtrace_fence()

static inline void pmtrace_persist_at(const char *label, const void *start, size_t length) {
    (void)label;
    pmtrace_lines(start, length);
    pmtrace_fence();
}
#define pmtrace_is_persist(start, length) PMTRIM_IS_PERSIST(start, length)
#define pmtrace_is_ordered_before(start, length, later, later_length) PMTRIM_IS_ORDERED_BEFORE(start, length, later, later_length)

#endif
