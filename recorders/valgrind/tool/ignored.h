/* Ranges of pools that the program, through PMDK, says are no persistent memory or clean: written beside the trace for `explain`
 * to ignore. */
#ifndef IGNORED_H
#define IGNORED_H

#include "core.h"

/* The program says this of memory. What it says of all of a mapping is that the mapping begins or ends. A range that is persistent
 * again, as that of a lock that was freed, is ignored no more. */
void not_persistent(Addr start, SizeT length);
void persistent(Addr start, SizeT length);
void declared_clean(Addr start, SizeT length);

/* How many ranges were ignored for a time. */
extern ULong ended_ignoring;

/* As pmemcheck answers: 0 where nothing of a range is persistent memory, 1 where all of it is, 2 where a part is. */
Int how_persistent(Addr start, SizeT length);

/* Writes the ranges, and gives how many; nothing is written where there is none. */
ULong write_ignored(const HChar *path);

#endif
