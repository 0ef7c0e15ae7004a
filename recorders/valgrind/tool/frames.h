/* The functions and source lines of an address of code, inlined ones too. */
#ifndef FRAMES_H
#define FRAMES_H

#include "core.h"

enum { MOST_INLINED = 12, FUNCTION_BYTES = 64, PLACE_BYTES = 96, SOURCE_BYTES = 512 };

/* `list.c:20`, `flush_range` and `/src/list.c:20`; and whether it is inlined into the next frame. */
typedef struct {
    HChar place[PLACE_BYTES], function[FUNCTION_BYTES], source[SOURCE_BYTES];
    Bool is_inlined;
} Frame;

/* The frames of an address that have source lines and are neither of the system's headers nor of its libraries, whose debug symbols
 * may be installed, the innermost first; how many. */
Int frames_at(Addr address, Frame frames[MOST_INLINED]);

/* The function of an address without lines, `memmove_avx` or `libpmem.so.1+0x1234`. */
const HChar *symbol_at(Addr address);

/* Whether an address is in the program or in a library at all. */
Bool is_in_object(Addr address);

/* Whether an address is in the C library or the loader, whose lines are there where their debug symbols are installed. */
Bool is_in_c_library(Addr address);

/* The length of a function's name without its parameters, which are the last brackets that it has. */
SizeT name_length(const HChar *name, SizeT length);

#endif
