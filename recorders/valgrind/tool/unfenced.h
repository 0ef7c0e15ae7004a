/* The flushes that their threads have not fenced since. */
#ifndef UNFENCED_H
#define UNFENCED_H

#include "core.h"

typedef struct {
    ULong line, sequence;
    Addr instruction;
    Bool written;    /* it stands in the trace */
    ThreadId thread; /* that flushed; invalid if it has ended, under `number` */
    Int number;
} Unfenced;

void begin_unfenced(void);
void add_unfenced(const Unfenced *added);

/* The thread fences: its flushes, in their order or by lines, and then there are none. */
void end_unfenced(ThreadId thread, void (*act)(const Unfenced *one));

/* A thread ends: whether a flush of it is open, which stays open under its number, or under none (-1). */
Bool leave_unfenced(ThreadId thread, Int number);

/* When each thread last flushed a line, of those that are there still: the latest first. An earlier one of a thread ends with its last
 * one. */
UInt find_unfenced(ULong line, const ULong **sequences);

void each_unfenced(void (*act)(Unfenced *one));
SizeT count_unfenced(void);
void forget_unfenced(void);

#endif
