/* Files that are no pools, for the last line: those that the program mapped so that it may write them, and those that it wrote by calls of
 * the system. Standard streams, removed files and the kernel's own are none. */
#ifndef OTHERS_H
#define OTHERS_H

#include "core.h"

/* Told of the descriptor of a file that may be a pool, or become one later: it is left out then. */
void other_is_opened(Int descriptor);
void other_is_mapped(Int descriptor);
void other_is_written(Int descriptor);

/* By fsync or fdatasync. */
void other_is_saved(Int descriptor);

/* Nothing is known of any: the process is another's copy. */
void forget_others(void);

typedef enum { ONLY_WRITTEN, WRITTEN_AND_SAVED, MAPPED } OtherUse;

enum { NAMES_BYTES = 700 };

/* Writes the name of the one with most of that use, and how many more there are, in NAMES_BYTES: how many there are in all. */
Int name_others(OtherUse use, HChar *names);

/* How often those that were written were saved. */
ULong saves_of_others(void);

#endif
