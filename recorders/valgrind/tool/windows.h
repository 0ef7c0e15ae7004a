/* The parts of the run that are recorded: a window opens and closes at a function, at a request of the program, or at an event. */
#ifndef WINDOWS_H
#define WINDOWS_H

#include "core.h"

/* The program begins, or a process that is a copy of its parent. */
void begin_windows(void);

/* A closed window opens. What is not safe then is carried into it: the pending stores and the open flushes. */
void open_window(ThreadId thread);

/* The process is a copy of its parent: its trace begins with what is not safe, unless its window opens later. */
void begin_as_child(ThreadId thread);

/* A store or flush of a program that became this one, which was not safe when it did. */
void carry_store(ULong address, const UChar *bytes, const UChar *old, SizeT length);
void carry_flush(ULong line);

/* One trace of several processes has no windows: what asks for them is counted, for the last line. */
extern ULong refused_windows;

/* What was recorded so far is forgotten, and the trace begins with what is not safe now. After a closed window it goes on. */
void begin_or_go_on(ThreadId thread);

void close_window(void);

/* Whether one was opened, and not only the program begun. */
Bool window_was_opened(void);

/* Told of each event of the run, recorded or not: windows by the numbers of events open and close behind them. More than one at a time
 * where no window opens within them, and none is open. */
void events_passed(ThreadId thread, SizeT count);

/* Whether a window opens behind one of so many next events, by its number. */
Bool opens_within(SizeT count);

/* How many events of the trace are carried. */
extern ULong carried_events;

/* Whether a part of a range was last stored to while no window was open: when that became safe is not in the trace. */
void mark_stored(ULong address, SizeT length);
Bool was_stored_outside(ULong address, SizeT length);

#endif
