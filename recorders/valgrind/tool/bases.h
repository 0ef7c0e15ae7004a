/* The bases: what stands in the pools' files when recording begins, beside the trace, for images of crashes. TRACE.base is the first
 * pool's, TRACE.base2 the second one's and so on; TRACE.origin, TRACE.origin2 .. have the address in the trace of its first byte. */
#ifndef BASES_H
#define BASES_H

#include "pools.h"

/* The base of each pool, and how many bytes it has, as the processes of a trace have them in common. */
typedef enum { NO_BASE, KEPT, LOST } BaseState;

typedef struct {
    struct {
        BaseState state;
        ULong length;
    } of_pools[MOST_POOLS];
} Bases;

/* The trace begins, or begins anew: what stands beside it is of another one and is removed. */
void begin_bases(void);

/* Keeps the files of pools that have no base yet, where bases are wanted and the window is open; a base grows with its pool. A base
 * that can't be written is told of and removed. */
void keep_bases(void);

/* Puts back what stood in a base before a store that is not safe, newest first, and closes what that opened. Where it is not known
 * (NULL) that is counted. */
void restore_in_bases(ULong address, const UChar *old, SizeT length);
void end_of_restoring(void);

extern ULong unrestored_stores;

/* How many pools have no base for that. */
extern ULong lost_bases;

#endif
