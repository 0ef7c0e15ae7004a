/* What the system does to pools for the program. */
#ifndef SYSCALLS_H
#define SYSCALLS_H

#include "core.h"

/* For the last line. */
typedef struct {
    ULong unseen_writes; /* calls that may have written to a pool's file in a way that can't be seen */
    ULong cut_files;     /* a pool's file was emptied by open, or its bytes were moved in it */
} SystemCounts;

extern SystemCounts system_counts;

void before_call(ThreadId thread, UInt call, UWord *arguments, UInt count);
void after_call(ThreadId thread, UInt call, UWord *arguments, UInt count, SysRes result);

/* The system wrote to memory of the program. */
void written_by_system(CorePart part, ThreadId thread, Addr start, SizeT length);

#endif
