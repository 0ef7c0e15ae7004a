/* What the program does to pools, noted as events. Each takes the instruction that does it. */
#ifndef EVENTS_H
#define EVENTS_H

#include "core.h"

typedef enum { CLWB, CLFLUSHOPT, CLFLUSH } FlushKind;

/* For the last line. */
typedef struct {
    ULong locked, failed_masks;
    ULong other_flushes;               /* of memory that is in no pool */
    const HChar *first_other_flush;    /* its label */
    ULong claims_outside;
    ULong set_aside; /* claims of order that a window can't judge */
    ULong frames;     /* of signal handlers, on a stack in a pool */
    ULong behind_end; /* stores to a file's last page, behind its end */
} Notes;

extern Notes notes;

/* The bytes stand in memory already. Parts that are in no pool are left out. */
void note_store(Addr start, SizeT length, Addr instruction);
/* A store of one step of a string instruction (rep movs, rep stos): steps that follow one another make one event a word. */
void note_step(Addr start, SizeT length, Addr instruction);
/* A non-temporal store: noted as a store and a clflushopt of its lines. */
void note_streamed(Addr start, SizeT length, Addr instruction);
void note_flush(FlushKind kind, Addr place, Addr instruction);
void note_fence(Bool full, Addr instruction);
/* A locked instruction, before its store. */
void note_locked(Addr instruction);

/* By the system, for a thread: stores whose bytes are in a pool's file, given by trace addresses; a flush and a fence. */
void note_bytes(ThreadId thread, ULong address, const UChar *bytes, SizeT length);
void note_synchronized(ThreadId thread, ULong from, ULong end);

/* A range that is claimed: of memory, or of a pool's file. */
typedef struct {
    Bool in_file;
    ULong start; /* in memory; or in the trace, where its file is a pool */
    SizeT length;
} Claimed;

Claimed claimed_memory(Addr start, SizeT length);
Claimed claimed_file(Int descriptor, ULong offset, SizeT length);

/* Claims, with their label. */
void note_is_persist(ThreadId thread, Claimed range, const HChar *label);
void note_is_ordered_before(ThreadId thread, Claimed first, Claimed second, const HChar *label);

/* Puts back in bases what stood before stores that are not noted yet, though they are in memory. */
void restore_rest_in_bases(void);

/* Writes what is still being put together. */
void settle_events(void);
void forget_events(void);

#endif
