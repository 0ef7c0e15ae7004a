/* Source lines that return a value. */
#ifndef RETURNS_H
#define RETURNS_H

#include "core.h"

/* Whether the line of `path:line` has the word return, as far as the source is there. */
Bool is_return(const HChar *source);

#endif
