/* Names of functions as users write them: a name with its parameters, or without. */
#ifndef NAMES_H
#define NAMES_H

#include "core.h"

enum { MOST_SIMILAR = 3 };

/* The functions that were called by a name, and others that ran and whose names have the wanted one in them. */
typedef struct {
    const HChar *wanted;
    const HChar *called[MOST_SIMILAR], *similar[MOST_SIMILAR];
    Int called_count, similar_count;
} WantedName;

/* Whether the function of this name is meant; it is kept as one that was called, or that is similar. */
Bool is_meant(WantedName *wanted, const HChar *name);

#endif
