/* The core's lock, which the running thread has. The core takes this one in place of its own: it is handed to the thread that is
 * drawn, whatever the number of those that wait. */
#ifndef LOCK_H
#define LOCK_H

#include "core.h"

/* Told with the lock held. A thread is to come, and did not come after all; the running thread ends. */
void lock_expects_thread(void);
void lock_misses_thread(void);
void lock_loses_thread(void);

/* The running thread goes into the system, and is back. */
void lock_enters_system(UInt call, const UWord *arguments);
void lock_leaves_system(void);

/* The running thread gives way as drawn, not since its slice is over: to another one. */
void lock_gives_way(void);

/* Whether there is another thread. */
Bool lock_is_shared(void);

/* How often who is next could not be drawn from the seed, as a thread did not come to rest. */
extern ULong undrawn_turns;

#endif
