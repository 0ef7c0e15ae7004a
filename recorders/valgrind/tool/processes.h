/* The processes of one trace, of which one runs at a time: the one that has the turn. Without --one-trace there is one process, and all of
 * this does nothing. */
#ifndef PROCESSES_H
#define PROCESSES_H

#include "core.h"

/* Waits for the turn, unless this process has it: till no other one is on the way to wait for it too, and then for those that came before.
 * The running thread gives it up. What a process that was killed had begun to write is not in the trace then. */
void take_process_turn(void);
void give_up_process_turn(void);

/* The running thread goes into a call in which the kernel may hold it for long, though the core counts it as one that does not wait. */
void before_waiting_call(void);

/* The first process makes what is in common, and a program that one of the processes became finds it. Both have the turn then. False where
 * the first process has ended: the program is none of the trace. */
Bool begin_processes(void);

/* After a fork. */
void child_was_begun(void);
void become_child(void);

/* The program is about to become another one, and did not after all. */
void before_becoming_another(void);

/* The process ends. Whether it is the one that ends the trace: the first one, or where that was killed the last one. */
Bool end_process(void);

/* The number of this process among those that live, and whether there are others. */
Int own_process(void);
Bool has_other_processes(void);

/* Looks for processes that were killed, whose threads have ended by that; whether there is one. */
Bool find_ended_processes(void);

/* For the last line: a thread of this process has a number; how many processes have such, and how many were killed in their turn. */
void process_has_number(void);
UInt process_count(void);
UInt processes_killed(void);

#endif
