/* Whose turn it is. Valgrind runs one thread at a time and lets it run for long; here a turn may end before accesses at which threads meet,
 * and after flushes, fences and locked instructions. Who is next is drawn from a seed, so that the same seed gives the same run of a program
 * with the same input. */
#ifndef TURNS_H
#define TURNS_H

#include "core.h"

void begin_turns(void);

/* A number below `count`, from the seed. */
ULong draw(ULong count);

/* Whether threads give way where they need not; and whether the one with the highest priority runs until it gives way, so that the others
 * run for long. */
Bool turns_are_drawn(void);
Bool turns_have_priorities(void);

/* The priority of the thread that is created as this one, at first; each is above this number. */
enum { LOWEST_AT_FIRST = 1 << 30 };
ULong first_priority(ULong ordinal);

/* Whether there is another thread or process to give way to. */
Bool may_give_way(void);

/* Whether the running thread is to give way. Translated code looks where it begins and has a store, flush or fence: the core itself looks
 * only where code jumps backwards. */
extern UWord gives_way;

/* The running thread's turn may end here: whether it does, at its next block of code. As often as that, it costs no more than what is run. */
Bool give_way(void);

/* How often a thread was told to run. */
extern ULong turns_begun;

/* Told by the core: the thread runs code of the program, after so many blocks of code in all threads. */
void turn_starts(ThreadId thread, ULong blocks);

#endif
