/* What a call of the system is going to empty in a pool's file: the bytes that are not zero before it. */
#ifndef EMPTIED_H
#define EMPTIED_H

#include "pools.h"

/* Before the call of a thread: finds them in [from, end). */
void find_emptied(ThreadId thread, const Pool *pool, ULong from, ULong end);

/* After it: they are noted as stores of zeros; or, where the call failed, forgotten. */
void note_emptied(ThreadId thread);
void forget_emptied(ThreadId thread);

#endif
