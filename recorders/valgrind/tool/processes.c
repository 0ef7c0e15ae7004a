#include "processes.h"
#include "children.h"
#include "common.h"
#include "events.h"
#include "options.h"
#include "output.h"
#include "parting.h"
#include "rest.h"
#include "threads.h"
#include "turns.h"

/* Of futex, and of the word that it takes: the number of the owner, and that an owner died. */
enum { LOCK_PI = 6, UNLOCK_PI = 7, OWNER = 0x3fffffff, OWNER_DIED = 0x40000000, TIMED_OUT = 110 };

/* How many milliseconds until a process counts as slow. */
enum { LONGEST_WAIT = 2000 };

static Bool has_turn;
static Int own = -1;
static UInt never_came; /* children that were begun, for which too long was waited */

/* The kernel hands a lock of this kind to the one that has waited longest, and after an owner's death to the next one too. Where nobody
 * waited then, the word keeps the dead one's number, and the kernel says that there is no such thread. */
static SysRes call_kernel(Int operation, const struct vki_timespec *until) {
    return VG_(do_syscall)(__NR_futex, (RegWord)&common->turn, (RegWord)operation, 0, (RegWord)until, 0, 0, 0, 0);
}

static SysRes wait_for_lock(Int seconds) {
    enum { WALL_CLOCK = 0 };
    struct vki_timespec until = {0};
    VG_(do_syscall)(__NR_clock_gettime, WALL_CLOCK, (RegWord)&until, 0, 0, 0, 0, 0, 0);
    until.tv_sec += seconds;
    return call_kernel(LOCK_PI, &until);
}

/* The process whose thread has the turn, by the kernel's number; 0 if it is not known. */
static Int process_with(Int thread) {
    Int place;
    for (place = 0; place < common->places; place++)
        if (common->processes[place].used && common->processes[place].thread == thread)
            return common->processes[place].process;
    return 0;
}

/* The one that has the turn had it for long. If it sleeps that is told, once; and it is ended if the run is to end. */
static void look_at_holder(Bool *told) {
    Int thread = (Int)(__atomic_load_n(&common->turn, __ATOMIC_ACQUIRE) & OWNER), process = process_with(thread);
    if (process == 0 || !stays_asleep(process, thread))
        return;
    if (!*told)
        VG_(printf)("pmtrim-record: process %d waits for its turn: process %d has it, and sleeps in the system; SIGTERM to one of them ends that\n",
                    VG_(getpid)(), process);
    *told = True;
    if (is_to_end(process) || is_to_end(VG_(getpid)()))
        VG_(kill)(process, VKI_SIGKILL);
}

static Bool take_word(UInt from, UInt to) {
    return __atomic_compare_exchange_n(&common->turn, &from, to, False, __ATOMIC_ACQ_REL, __ATOMIC_RELAXED);
}

/* Whether its owner before died while it had it. */
static Bool take_lock(void) {
    UInt own_number = (UInt)VG_(gettid)();
    Bool told = False;
    while (!take_word(0, own_number)) {
        UInt seen = __atomic_load_n(&common->turn, __ATOMIC_ACQUIRE);
        if ((seen & OWNER) == own_number)
            return True;
        SysRes done = wait_for_lock(told ? NEXT_LOOK : LONG_WAIT);
        if (!sr_isError(done))
            break;
        if (sr_Err(done) == TIMED_OUT)
            look_at_holder(&told);
        if (sr_Err(done) == VKI_ESRCH && seen != 0 && take_word(seen, own_number))
            return True;
    }
    return (__atomic_fetch_and(&common->turn, ~(UInt)OWNER_DIED, __ATOMIC_ACQ_REL) & OWNER_DIED) != 0;
}

/* Whether a process moves that neither has the turn nor waits for it: it will soon, as one that was woken, or that begins. */
static Bool any_on_the_way(void) {
    Int place;
    for (place = 0; place < common->places; place++) {
        const Process *other = &common->processes[place];
        if (other->used && !other->here && !other->slow && doing_in(other->process, other->thread) == RUNS_THERE)
            return True;
    }
    return common->begun > common->come + never_came;
}

/* Those for which too long was waited are not waited for until they come. */
static void count_as_slow(void) {
    Int place;
    for (place = 0; place < common->places; place++)
        common->processes[place].slow = !common->processes[place].here;
    never_came = common->begun > common->come ? common->begun - common->come : 0;
}

static void wait_for_others(void) {
    Int looks;
    UInt begun = 0;
    for (looks = 0; any_on_the_way(); looks++) {
        pause_between_looks(looks);
        if (looks == QUICK_LOOKS)
            begun = VG_(read_millisecond_timer)();
        if (looks > QUICK_LOOKS && VG_(read_millisecond_timer)() - begun > LONGEST_WAIT) {
            count_as_slow();
            return;
        }
    }
}

static ULong count_others_here(void) {
    ULong count = 0;
    Int place;
    for (place = 0; place < common->places; place++)
        count += place != own && common->processes[place].used && common->processes[place].here;
    return count;
}

/* Nobody has the turn: of those that wait for it one is drawn, and this one waits a little till another one has it. */
static void draw_process(void) {
    ULong others = count_others_here();
    Int looks;
    if (others == 0 || draw(others + 1) == 0)
        return;
    for (looks = 0; looks < 2 * QUICK_LOOKS && __atomic_load_n(&common->turn, __ATOMIC_ACQUIRE) == 0; looks++)
        pause_between_looks(looks);
}

/* Other processes look at this without the turn. */
static void set_here(Bool here) {
    if (own < 0)
        return;
    common->processes[own].thread = VG_(gettid)();
    common->processes[own].slow = False;
    __atomic_store_n(&common->processes[own].here, here, __ATOMIC_RELEASE);
}

void take_process_turn(void) {
    if (!options.one_trace || has_turn)
        return;
    set_here(True);
    if (has_other_processes() && turns_are_drawn()) {
        wait_for_others();
        draw_process();
    }
    if (take_lock())
        common->killed++;
    has_turn = True;
    catch_up();
}

void give_up_process_turn(void) {
    if (!has_turn)
        return;
    settle_events();
    has_turn = False;
    set_here(False);
    if (!take_word((UInt)VG_(gettid)(), 0))
        call_kernel(UNLOCK_PI, NULL);
}

void before_waiting_call(void) {
    give_up_process_turn();
    if (own >= 0 && options.one_trace)
        common->processes[own].slow = True;
}

/* Counted anew, as one that died may have been about to. */
static void count_living(void) {
    UInt living = 0;
    Int place, places = 0;
    for (place = 0; place < MOST_PROCESSES; place++)
        if (common->processes[place].used) {
            living++;
            places = place + 1;
        }
    common->living = living;
    common->places = places;
}

/* Takes the lowest free place among the processes; the kernel's lock on it ends with the process. */
static void enter(void) {
    Int place = 0;
    find_ended_processes();
    while (place < MOST_PROCESSES && common->processes[place].used)
        place++;
    if (place == MOST_PROCESSES) {
        end_trace("more than 1024 processes at one time");
        return;
    }
    lock_byte(place, True);
    own = place;
    common->processes[place] = (Process){.process = VG_(getpid)(), .thread = VG_(gettid)(), .here = True};
    common->processes[place].used = True;
    count_living();
}

static void leave(Int place) {
    end_threads_of(place);
    common->processes[place].used = False;
    count_living();
}

Bool find_ended_processes(void) {
    Bool any = False;
    Int place;
    for (place = 0; options.one_trace && place < MOST_PROCESSES; place++)
        if (place != own && common->processes[place].used && !is_byte_locked(place)) {
            leave(place);
            any = True;
        }
    return any;
}

Bool begin_processes(void) {
    if (!options.one_trace)
        return True;
    if (options.parent_trace == NULL)
        make_common(options.trace);
    else if (!find_common(options.parent_trace, options.first_process)) {
        options.one_trace = options.children = False;
        return False;
    }
    take_process_turn();
    enter();
    return True;
}

void child_was_begun(void) {
    if (!options.one_trace)
        return;
    take_process_turn();
    part_from_now_on();
    common->begun++;
}

void become_child(void) {
    has_turn = False;
    own = -1;
    take_process_turn();
    common->come++;
    enter();
    part_from_now_on();
}

void before_becoming_another(void) {
    write_trace();
    give_up_process_turn();
}

/* Those that were begun and have not come yet are among them. */
static UInt count_others(void) {
    find_ended_processes();
    return common->living - (own >= 0) + (common->begun > common->come ? common->begun - common->come : 0);
}

static Bool is_first(void) {
    return VG_(getpid)() == common->first_process;
}

static void end_common_trace(UInt others) {
    HChar why[96];
    if (others > 0) {
        VG_(sprintf)(why, "the first process ended here, and %u other%s went on", others, others == 1 ? "" : "s");
        end_trace(why);
    }
    common->trace.ended = common->over = True;
    remove_common();
}

Bool end_process(void) {
    take_process_turn();
    settle_events();
    write_trace();
    UInt others = count_others();
    Bool ends = is_first() || (others == 0 && !common->over);
    if (ends)
        end_common_trace(others);
    if (own >= 0) {
        leave(own);
        lock_byte(own, False);
    }
    own = -1;
    return ends;
}

Int own_process(void) {
    return own < 0 ? 0 : own;
}

Bool has_other_processes(void) {
    return options.one_trace && common->living > 1;
}

void process_has_number(void) {
    Process *process = &common->processes[own_process()];
    if (!process->has_numbered) {
        process->has_numbered = True;
        common->numbered++;
    }
}

UInt process_count(void) {
    return common->numbered;
}

UInt processes_killed(void) {
    return common->killed;
}
