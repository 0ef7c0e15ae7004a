/* The translated code of the program, with calls to the recorder in it. */
#ifndef INSTRUMENT_H
#define INSTRUMENT_H

#include "core.h"

IRSB *instrument(VgCallbackClosure *closure, IRSB *code, const VexGuestLayout *layout, const VexGuestExtents *extents,
                 const VexArchInfo *machine, IRType guest_word, IRType host_word);

/* The instruction that was not known and was to be run last; 0 if none. */
extern Addr unknown_instruction;
extern HChar unknown_text[300];

#endif
