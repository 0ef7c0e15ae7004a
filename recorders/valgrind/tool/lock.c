#include "lock.h"
#include "options.h"
#include "processes.h"
#include "rest.h"
#include "turns.h"

/* How many milliseconds until a thread counts as never at rest. */
enum { MOST_RUNNERS = 4096, LONGEST_WAIT = 10000 };

/* Where a thread is: it has the lock, it waits for it, it is in the system and will come back, or it has ended and will be gone. */
typedef enum { RUNS, WAITS, AWAY, LEAVES } Where;

/* A thread of this process, by the kernel's number. */
typedef struct {
    Int kernel_thread;
    Int descriptor; /* by which it is looked at */
    Where where;
    Bool in_system, ends; /* what the running thread is about to do */
    Bool gives;           /* it gives way as drawn */
    Bool rests;           /* it was seen to sleep, and nothing came that may have woken it */
    UInt call;
    Sleeping sleeping;
    UInt called; /* a futex: it is to look again */
    ULong priority; /* where the highest runs; 0: none yet */
} Runner;

ULong undrawn_turns;

/* All that follows is read and written within the guard, but by the thread that has the lock. */
static UInt guard;
static Runner places[MOST_RUNNERS];
static Runner *runners[MOST_RUNNERS]; /* by the order of their creation */
static Int runner_count, expected;
static Int settled; /* so many of them, the first ones, had come when nobody was expected */
static Runner *owner;
/* The thread that has the next turn if it comes back from its call; and who sees to it that somebody has it. */
static Runner *reserved, *arbiter;
static ULong last_ordinal, lowest_priority = LOWEST_AT_FIRST;

static void enter(void) {
    while (__atomic_exchange_n(&guard, 1, __ATOMIC_ACQUIRE) != 0)
        VG_(do_syscall)(__NR_sched_yield, 0, 0, 0, 0, 0, 0, 0, 0);
}

static void leave(void) {
    __atomic_store_n(&guard, 0, __ATOMIC_RELEASE);
}

static SysRes futex(UInt *word, Int operation, UInt value, const struct vki_timespec *most) {
    return VG_(do_syscall)(__NR_futex, (RegWord)word, (RegWord)operation, value, (RegWord)most, 0, 0, 0, 0);
}

static void call_up(Runner *one) {
    enum { WAKE = 1 | 128 };
    __atomic_store_n(&one->called, 1, __ATOMIC_RELEASE);
    futex(&one->called, WAKE, 1, NULL);
}

static void remove_runner(Int number) {
    VG_(close)(runners[number]->descriptor);
    runners[number]->kernel_thread = 0;
    runner_count--;
    settled -= number < settled;
    VG_(memmove)(&runners[number], &runners[number + 1], (SizeT)(runner_count - number) * sizeof *runners);
}

/* All that were expected have come, so that their order is known. */
static void settle(void) {
    if (expected > 0)
        return;
    for (; settled < runner_count; settled++)
        if (runners[settled]->priority == 0)
            runners[settled]->priority = first_priority(++last_ordinal);
}

static void lose_priority(Runner *one) {
    one->priority = --lowest_priority;
}

/* Those that were expected together come in any order: the kernel's numbers tell which was created first. */
static Runner *add_runner(Int kernel_thread) {
    Int number, at = runner_count;
    for (number = 0; places[number].kernel_thread != 0; number++)
        tl_assert(number + 1 < MOST_RUNNERS);
    places[number] = (Runner){.kernel_thread = kernel_thread, .descriptor = open_doing(kernel_thread), .where = AWAY};
    for (; at > settled && is_numbered_before(kernel_thread, runners[at - 1]->kernel_thread); at--)
        runners[at] = runners[at - 1];
    runners[at] = &places[number];
    runner_count++;
    if (expected > 0)
        expected--;
    settle();
    return &places[number];
}

static Runner *runner_with(Int kernel_thread) {
    Int number;
    for (number = 0; number < runner_count; number++)
        if (runners[number]->kernel_thread == kernel_thread)
            return runners[number];
    return add_runner(kernel_thread);
}

static Int count_waiting(void) {
    Int number, count = 0;
    for (number = 0; number < runner_count; number++)
        count += runners[number]->where == WAITS;
    return count;
}

static Runner *first_waiting(void) {
    Int number;
    for (number = 0; number < runner_count; number++)
        if (runners[number]->where == WAITS)
            return runners[number];
    return NULL;
}

static Runner *highest_waiting(void) {
    Runner *highest = first_waiting();
    Int number;
    for (number = 0; number < runner_count; number++)
        if (runners[number]->where == WAITS && runners[number]->priority > highest->priority)
            highest = runners[number];
    return highest;
}

/* One of those that wait, by the seed; there is one. */
static Runner *draw_waiting(void) {
    if (turns_have_priorities())
        return highest_waiting();
    Int chosen = (Int)draw((ULong)count_waiting()), number;
    for (number = 0; runners[number]->where != WAITS || chosen-- > 0; number++)
        continue;
    return runners[number];
}

static void give_to(Runner *next) {
    next->where = RUNS;
    owner = next;
    reserved = arbiter = NULL;
}

/* Whether nobody but `self` is on the way, at one look; `fresh` is set where somebody is seen to rest who was not before. */
static Bool nobody_moves(const Runner *self, Bool *fresh) {
    Int number;
    if (expected > 0)
        return False;
    for (number = runner_count - 1; number >= 0; number--) {
        Runner *one = runners[number];
        if (one == self || one->where == RUNS || one->where == WAITS || one->rests)
            continue;
        Doing now = doing(one->descriptor, one->kernel_thread);
        if (now == RUNS_THERE || (now == SLEEPS_THERE && one->where == LEAVES))
            return False;
        if (now == GONE)
            remove_runner(number);
        *fresh = True;
    }
    return True;
}

static void all_rest(const Runner *self) {
    Int number;
    for (number = 0; number < runner_count; number++)
        if (runners[number] != self && runners[number]->where == AWAY)
            runners[number]->rests = True;
}

/* Within the guard, which is left for a while: waits until nobody but `self` moves. A sleeper that is seen may have been woken before
 * the one that woke it slept, so all are looked at again. False where the lock went to somebody meanwhile. */
static Bool wait_for_rest(const Runner *self) {
    const Runner *had = owner;
    Int looks;
    Bool before = False, too_long = False;
    UInt begun = 0;
    for (looks = 0; !too_long; looks++) {
        Bool fresh = False, now = nobody_moves(self, &fresh);
        if (now && (before || !fresh))
            break;
        before = now;
        if (!now) {
            leave();
            pause_between_looks(looks);
            enter();
            if (owner != had)
                return False;
        }
        if (looks == QUICK_LOOKS)
            begun = VG_(read_millisecond_timer)();
        too_long = looks > QUICK_LOOKS && VG_(read_millisecond_timer)() - begun > LONGEST_WAIT;
    }
    undrawn_turns += too_long;
    all_rest(self);
    return True;
}

/* The lock is free, and `self` waits for it and sees to it that somebody gets it. */
static void decide(Runner *self) {
    if (!wait_for_rest(self))
        return;
    Runner *next = reserved != NULL && reserved->where == WAITS ? reserved : draw_waiting();
    give_to(next);
    if (next != self)
        call_up(next);
}

/* The thread that has the turn had it for long. If it sleeps, in a call that Valgrind takes for one that does not wait, that is told, once;
 * and all is ended if it is to end, as nothing of the program would take the signal. Of one trace processes.h sees to that. */
static void look_at_owner(void) {
    static Bool told;
    const Runner *had = owner;
    Int thread = had == NULL ? 0 : had->kernel_thread, process = VG_(getpid)();
    if (options.one_trace || thread == 0 || !stays_asleep(process, thread) || owner != had)
        return;
    if (!told)
        VG_(printf)("pmtrim-record: threads wait for their turn: thread %d has it, and sleeps in the system; SIGTERM ends that\n", thread);
    told = True;
    if (is_to_end(process))
        VG_(kill)(process, VKI_SIGKILL);
}

static void sleep_until_called(Runner *self) {
    enum { WAIT = 0 | 128, TIMED_OUT = 110 };
    struct vki_timespec most = {LONG_WAIT, 0};
    while (__atomic_load_n(&self->called, __ATOMIC_ACQUIRE) == 0) {
        SysRes done = futex(&self->called, WAIT, 0, &most);
        if (sr_isError(done) && sr_Err(done) == TIMED_OUT) {
            look_at_owner();
            most.tv_sec = NEXT_LOOK;
        }
    }
}

static void note_woken(const Sleeping *by) {
    Int number;
    for (number = 0; number < runner_count; number++) {
        Runner *one = runners[number];
        if (by->wakes == WAKES_ANYBODY || (by->wakes == WAKES_WORD && one->sleeping.sleeps_on == by->woken) ||
            (by->wakes == WAKES_SLEEPERS && one->sleeping.sleeps_on == 0))
            one->rests = False;
    }
}

/* What the core calls. */

struct sched_lock {
    Int unused;
};

extern Bool vgModuleLocal_set_sched_lock_impl(Int kind);
extern const HChar *vgModuleLocal_get_sched_lock_name(void);
extern struct sched_lock *vgModuleLocal_create_sched_lock(void);
extern void vgModuleLocal_destroy_sched_lock(struct sched_lock *lock);
extern int vgModuleLocal_get_sched_lock_owner(struct sched_lock *lock);
extern void vgModuleLocal_acquire_sched_lock(struct sched_lock *lock);
extern void vgModuleLocal_release_sched_lock(struct sched_lock *lock);

Bool vgModuleLocal_set_sched_lock_impl(Int kind) {
    return True;
}

const HChar *vgModuleLocal_get_sched_lock_name(void) {
    return "drawn";
}

struct sched_lock *vgModuleLocal_create_sched_lock(void) {
    static struct sched_lock only;
    while (runner_count > 0)
        remove_runner(0);
    VG_(memset)(places, 0, sizeof places);
    expected = settled = 0;
    owner = reserved = arbiter = NULL;
    guard = 0;
    return &only;
}

void vgModuleLocal_destroy_sched_lock(struct sched_lock *lock) {
}

int vgModuleLocal_get_sched_lock_owner(struct sched_lock *lock) {
    return owner == NULL ? 0 : owner->kernel_thread;
}

/* Within the guard, at a free lock: takes it for one that has come, or lets it see to that. */
static void arrive(Runner *self) {
    if (runner_count == 1 || reserved == self)
        give_to(self);
    else if (arbiter == NULL || arbiter->where != WAITS) {
        arbiter = self;
        decide(self);
    }
}

void vgModuleLocal_acquire_sched_lock(struct sched_lock *lock) {
    Int kernel_thread = VG_(gettid)();
    enter();
    Runner *self = runner_with(kernel_thread);
    if (self->where == AWAY || self->where == LEAVES) {
        self->where = WAITS;
        self->rests = self->ends = False;
        /* whom its call has woken may be on the way already, before this thread has a turn to say so */
        if (self->in_system)
            note_woken(&self->sleeping);
        if (owner == NULL)
            arrive(self);
    }
    while (self->where != RUNS) {
        leave();
        sleep_until_called(self);
        enter();
        self->called = 0;
        if (self->where == WAITS && owner == NULL && arbiter == self)
            decide(self);
    }
    self->called = 0;
    leave();
    take_process_turn();
}

/* The running thread goes on if its slice is over and it is drawn. */
static void release_to_yield(Runner *self) {
    wait_for_rest(self);
    lose_priority(self);
    if (!self->gives || count_waiting() == 0)
        self->where = WAITS;
    Runner *next = draw_waiting();
    self->where = WAITS;
    self->gives = False;
    owner = NULL;
    give_to(next);
    if (next != self)
        call_up(next);
}

/* The lock is free: who has the next turn is found out when everybody rests. */
static void leave_to_arbiter(Runner *with_turn) {
    reserved = with_turn;
    arbiter = first_waiting();
    if (arbiter != NULL)
        call_up(arbiter);
}

/* The running thread goes into the system, and keeps the turn if that is drawn and it comes back at once. After a call on a futex,
 * which may give up a lock, the threads that it wakes count as well. */
static void release_to_system(Runner *self) {
    Bool drawn = turns_are_drawn();
    if (self->call == __NR_sched_yield)
        lose_priority(self);
    self->gives = False;
    self->where = AWAY;
    self->rests = False;
    if (self->call != __NR_futex)
        wait_for_rest(self);
    owner = NULL;
    if ((self->call == __NR_futex && drawn) || turns_have_priorities())
        leave_to_arbiter(NULL);
    else if (self->call != __NR_sched_yield && (!drawn || draw((ULong)count_waiting() + 1) == 0))
        leave_to_arbiter(self);
    else if (count_waiting() > 0) {
        Runner *next = draw_waiting();
        give_to(next);
        call_up(next);
    }
}

static void release_to_end(Runner *self) {
    self->where = LEAVES;
    owner = NULL;
    leave_to_arbiter(NULL);
}

void vgModuleLocal_release_sched_lock(struct sched_lock *lock) {
    give_up_process_turn();
    enter();
    Runner *self = owner;
    if (self->ends)
        release_to_end(self);
    else if (runner_count == 1 && expected == 0) {
        self->where = AWAY;
        owner = NULL;
    } else if (self->in_system)
        release_to_system(self);
    else
        release_to_yield(self);
    leave();
}

/* What the tool tells. */

void lock_expects_thread(void) {
    enter();
    expected++;
    leave();
}

void lock_misses_thread(void) {
    enter();
    expected--;
    settle();
    leave();
}

void lock_loses_thread(void) {
    enter();
    owner->ends = True;
    note_woken(&(Sleeping){.wakes = WAKES_ANYBODY});
    leave();
}

void lock_enters_system(UInt call, const UWord *arguments) {
    enter();
    owner->in_system = True;
    owner->call = call;
    owner->sleeping = sleeping(call, arguments);
    note_woken(&owner->sleeping);
    leave();
}

void lock_leaves_system(void) {
    enter();
    owner->in_system = False;
    note_woken(&owner->sleeping);
    leave();
}

void lock_gives_way(void) {
    owner->gives = True;
}

Bool lock_is_shared(void) {
    return runner_count > 1 || expected > 0;
}
