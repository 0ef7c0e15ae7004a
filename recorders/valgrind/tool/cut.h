/* The file FILE.cut beside a trace that is not all of what happened: one line, the number of the last event and why no more are
 * there. Where the disk is full it may be empty, which is told. */
#ifndef CUT_H
#define CUT_H

#include "core.h"

/* The trace of which the file speaks, by its name from the root on: the program may go to another folder. */
void name_cut(const HChar *trace);

/* A trace of this name begins: till its end the file says that it has none yet, for a run that is killed. */
void begin_cut(const HChar *trace);

/* The trace has all that it was to have. */
void end_cut(void);

/* Says after which event the trace ends, and why. No file stands beside a device. */
void write_cut(ULong events, const HChar *why);

#endif
