/* Which lines of pools were stored to since they were last synchronized by the system (msync, fsync). */
#ifndef DIRTY_H
#define DIRTY_H

#include "core.h"

void mark_dirty(ULong address);

/* The first such line in [from, end), which is not one any more; `end` if there is none. */
ULong take_dirty(ULong from, ULong end);

#endif
