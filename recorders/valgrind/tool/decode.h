/* Instructions by their bytes: what the translator of Valgrind does not know, or does not tell apart.
 * The encodings are those of the Intel SDM, volume 2. */
#ifndef DECODE_H
#define DECODE_H

#include "core.h"

/* A cache line flush, with its address: base + (index << shift) + displacement, and the thread's segment where it is named. */
typedef struct {
    Int kind;            /* a FlushKind */
    Int length;          /* of the instruction */
    Int base, index;     /* numbers of registers, -1 for none */
    Int shift;
    Long displacement;   /* with the next instruction's address, where the address is relative to that */
    Bool half_address;   /* its low 32 bits alone count, before the segment is added */
    Bool thread_segment; /* of fs */
} Flush;

/* Whether a clwb, clflushopt or clflush with an operand in memory stands there. */
Bool decode_flush(Addr place, Flush *flush);

typedef enum { NO_FENCE, SFENCE, MFENCE } FenceKind;
FenceKind decode_fence(Addr place, UInt length);

typedef enum { PLAIN_STORE, STEP_STORE, STREAMED_STORE, MASKED_STORE } StoreKind;
StoreKind decode_store(Addr place, UInt length);

/* Whether it is a string instruction that loads what it stores (movs). */
Bool is_string_copy(Addr place, UInt length);

/* What kind of instruction it is that is not known, for a person. */
const HChar *name_unknown(Addr place);

#endif
