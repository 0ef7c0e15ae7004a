/* note.h: what the calls of libpmem and libpmem2 are in the trace. Nothing is noted of volatile memory. */
#ifndef PMTRACE_NOTE_H
#define PMTRACE_NOTE_H

#include <stddef.h>

/* clwb of each line of the range; sfence; both. */
void pmtrace_note_flush(const char *label, const void *start, size_t length);
void pmtrace_note_drain(const char *label);
void pmtrace_note_persist(const char *label, const void *start, size_t length);

/* clwb of each line of the pages of the range, msync(2) of them, and sfence. Answers as msync(2): where the range is not mapped
 * nothing is noted, where it can't be written no sfence. */
int pmtrace_note_msync(const char *label, const void *start, size_t length);

/* As memmove and memset, with the flags that pmem_memmove and the functions of libpmem2 have. */
void *pmtrace_note_move(const char *label, void *to, const void *from, size_t length, unsigned flags);
void *pmtrace_note_set(const char *label, void *to, int byte, size_t length, unsigned flags);

#endif /* PMTRACE_NOTE_H */
