/* Labels: the source line of an event, and its callers inside the program. */
#ifndef LABELS_H
#define LABELS_H

#include "core.h"

/* What an event does. The label of one that saves, a flush or fence, begins with the innermost function that has stored by then, itself or
 * by one that it called, if there is one: functions that flush and fence for others are left out. So is an inlined
 * one where the value that it returns is stored. */
typedef enum { STORING, SAVING, CLAIMING } Act;

/* The label of an event by this thread's instruction, as `list.c:20 link < insert list.c:57`: the place comes first, then its function,
 * then callers with the place of the call. NULL without labels. It stays as it is. */
const HChar *label_at(ThreadId thread, Addr instruction, Act act);

/* At the first instruction of a function: the label of its call. */
const HChar *label_of_caller(ThreadId thread);

/* The label of what was done before the window by an instruction, without callers. */
const HChar *label_of_past(Addr instruction);

/* The place alone of an instruction. */
const HChar *place_of(Addr instruction);

#endif
