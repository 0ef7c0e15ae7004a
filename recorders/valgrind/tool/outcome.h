/* The file TRACE.process, if it is asked for: what program the process is, and how it ended. */
#ifndef OUTCOME_H
#define OUTCOME_H

#include "core.h"

/* Begins the file beside a trace: how the process ends is not known yet. */
void begin_outcome(const HChar *trace);

/* Leaves it to the process that this one was forked from. */
void leave_outcome(void);

/* Told before the process asks the system for its end. */
void note_exit(UInt status);

/* Writes how it ended: by what was told before, by a signal where nothing was; or that it became another program. */
void write_outcome(void);
void write_becoming(void);

#endif
