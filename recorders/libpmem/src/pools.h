/* pools.h: the mappings that are recorded as persistent memory, and those that are not. */
#ifndef PMTRACE_POOLS_H
#define PMTRACE_POOLS_H

#include <stdbool.h>
#include <stddef.h>

/* What a mapping is: recorded as persistent memory, or not, since what is stored there reaches no file. */
enum pmtrace_memory { PMTRACE_PERSISTENT, PMTRACE_VOLATILE };

/* Begins to record a shared mapping, plain stores too. The first begins the trace, in the file that the environment's
 * PMTRACE_FILE names, or else in NAME.trace. Where it can't be recorded standard error says so. */
void pmtrace_begin_pool(const char *label, const void *start, size_t length, const char *name);

/* Marks memory that is not recorded; standard error says so of the first. `why` names its kind. */
void pmtrace_leave_out(const void *start, size_t length, const char *why);

/* To be called before the range, or a part of a mapping, is unmapped: its plain stores are noted. */
void pmtrace_end_pool(const char *label, const void *start, size_t length);

/* Whether all of the range is in mappings of this kind; not where it has no byte. */
bool pmtrace_is_all(enum pmtrace_memory kind, const void *start, size_t length);

/* Where the pages of the range end, or the mapping in the last of them, if that is earlier. NULL where its last byte is in no
 * mapping that is recorded. The range has a byte. */
const void *pmtrace_end_of_pages(const void *start, size_t length);

#endif /* PMTRACE_POOLS_H */
