/* Sorting that takes n log n steps whatever the order was: Valgrind's own takes n * n where it was right already. */
#ifndef SORTING_H
#define SORTING_H

#include "core.h"

typedef Int (*Compare)(const void *one, const void *other);

/* Sorts so many elements of a size; equal ones keep their order. */
void sort(void *first, SizeT count, SizeT size, Compare compare);

#endif
