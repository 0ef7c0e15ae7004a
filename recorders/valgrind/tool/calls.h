/* Calls of functions that the user named: where recording starts and stops, and whose returns claim that a range is saved. */
#ifndef CALLS_H
#define CALLS_H

#include "code.h"
#include "names.h"

void begin_calls(void);

/* At the beginning of a block of code: where that is a function that gives up a lock, its thread may give way. */
void add_plain_unlock(Writer *writer);

/* Where a named function begins, and where a block of code ends in a call or a return, the code says so. */
void add_entry(Writer *writer);
void add_call_or_return(Writer *writer);

/* For the last line. */
typedef struct {
    ULong unreturned; /* calls of a named function that did not return */
} CallCounts;

extern CallCounts call_counts;

/* Each function that was named, by its number, and whether it was called; NULL behind the last one. */
const WantedName *wanted_function(Int number, Bool *called);

#endif
