/* What stood in memory before the store that is being noted: for bases, which have what is safe when a window opens. */
#ifndef OLD_H
#define OLD_H

#include "core.h"

/* Told before a store, of one instruction or of the system. */
void keep_old(Addr start, SizeT length);

/* What was kept of these bytes; NULL if it was not. */
const UChar *find_old(Addr start, SizeT length);

#endif
