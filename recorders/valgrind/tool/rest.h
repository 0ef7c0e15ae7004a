/* Whether a thread rests in the system, as the kernel tells. */
#ifndef REST_H
#define REST_H

#include "core.h"

/* Whether, of two threads that were created soon after each other, this one was created first. The kernel gives rising numbers, and after
 * the highest one small ones again. */
Bool is_numbered_before(Int kernel_thread, Int other);

/* It will go on by itself, it sleeps till something comes, or the kernel has no such thread any more. */
typedef enum { RUNS_THERE, SLEEPS_THERE, GONE } Doing;

Doing doing_in(Int kernel_process, Int kernel_thread);

/* Of a thread of this process, by a descriptor that was opened for it; -1 where there was no room for one. */
Int open_doing(Int kernel_thread);
Doing doing(Int descriptor, Int kernel_thread);

/* Between one look at others and the next: the first ones come at once. */
enum { QUICK_LOOKS = 200 };
void pause_between_looks(Int looks);

/* Whether it sleeps at each of some looks; and whether a signal waits for its process that is to end that (SIGHUP, SIGINT, SIGTERM). */
Bool stays_asleep(Int kernel_process, Int kernel_thread);
Bool is_to_end(Int kernel_process);

/* After how many seconds of waiting for one that has the turn it is looked at; and again after a shorter time. */
enum { LONG_WAIT = 10, NEXT_LOOK = 1 };

/* A call of a thread, as far as sleeping and waking go. */
typedef struct {
    enum { WAKES_NOBODY, WAKES_WORD, WAKES_SLEEPERS, WAKES_ANYBODY } wakes;
    Addr woken;    /* of WAKES_WORD: the futex */
    Addr sleeps_on; /* the futex that it waits for; 0 if it waits for none */
} Sleeping;

/* What a call can do. A sleeper on a futex is woken by calls on that futex, by signals and by ends of threads. */
Sleeping sleeping(UInt call, const UWord *arguments);

#endif
