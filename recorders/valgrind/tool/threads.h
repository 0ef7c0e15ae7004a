/* The threads of the program, and their numbers in the trace. */
#ifndef THREADS_H
#define THREADS_H

#include "core.h"
#include "output.h"

void begin_threads(void);

/* The number of a thread in the trace, which it gets now if it has none: the lowest that is free. When the thread ends it is free
 * again, unless a flush of the thread is open: the next fence by that number would complete that. -1 where none is free. */
Int thread_number(ThreadId thread);

/* The next event of the trace is that of the thread which has this number. */
void note_acting(Int number);

/* How often the next event is another thread's; and how often one that had some and goes on, after one that goes on too. */
typedef struct {
    ULong all, back;
} Switches;

Switches switches(void);

/* A number, and the thread that has it. */
typedef struct {
    Bool given;
    Bool acted;    /* the thread has an event in the trace */
    Bool flushed;  /* the thread has a flush open */
    UShort process;
    UInt serial;   /* the thread's, of all to which numbers were given; 0: it has ended */
} Number;

/* The numbers as the processes of a trace have them in common. A process that dies leaves its own to be taken back. */
typedef struct {
    Number all[MOST_THREADS];
    ULong given;      /* how many were given, one that was used again among them */
    UInt last_serial; /* that was given */
    Int acting;       /* who has the last event, by number and serial */
    UInt acting_serial;
    Switches switches;
} Numbers;

/* A process has ended: its threads have. */
void end_threads_of(Int process);

/* The number of what threads did that have ended before they had one. */
Int number_of_ended(void);

/* The trace begins anew: no thread has a number. */
void forget_numbers(void);

/* How many threads had a number. */
ULong thread_count(void);

/* Which thread it is, of all that there ever were; and the thread of that, if it has not ended. */
UInt thread_serial(ThreadId thread);
ThreadId thread_of_serial(UInt serial);

/* Whether a thread has flushed a line since its last fence, or since a locked instruction after that. */
typedef enum { NO_FLUSH, OPEN_FLUSH, LOCKED_SINCE } OpenFlush;
OpenFlush open_flush(ThreadId thread);
void set_open_flush(ThreadId thread, OpenFlush open);

/* Told where a thread begins, ends, and where the process becomes a copy of its parent with one thread. */
void thread_created(ThreadId parent, ThreadId child);
void thread_ends(ThreadId thread);
void only_thread(ThreadId thread);

#endif
