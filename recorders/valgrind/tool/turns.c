#include "turns.h"
#include "lock.h"
#include "options.h"
#include "processes.h"

/* A turn costs about as much as some thousand blocks of code: as many are free at first, and then one after so many blocks. */
enum { FREE_TURNS = 50000, BLOCKS_OF_TURN = 2000 };

UWord gives_way;
ULong turns_begun;

static ULong random_state;

/* A turn ends at one in so many places where it may. */
static ULong rate;
static Bool by_priority;

/* The core counts what is left of a slice as run where a thread gives way. */
static ULong blocks_skipped, blocks_run, turns_given;

/* Seeds differ in how often a turn ends, as some faults need many short turns and others few long ones. One in four is of the kind that has
 * priorities (Burckhardt et al., A Randomized Scheduler with Probabilistic Guarantees of Finding Bugs, ASPLOS 2010), where turns that end
 * are fewer. */
static void choose_rate(UInt seed) {
    static const UChar rates[] = {2, 4, 8, 16};
    UInt group = seed / 4;
    by_priority = options.switch_every == BY_SEED && seed % 4 == 0 && !options.one_trace;
    if (options.switch_every != BY_SEED)
        rate = (ULong)options.switch_every;
    else if (by_priority)
        rate = 4ULL << 2 * (group % 4);
    else
        rate = rates[(seed - group) % 4];
}

void begin_turns(void) {
    random_state = ((ULong)options.seed + 1) * 0x9E3779B97F4A7C15ULL | 1;
    choose_rate((UInt)options.seed);
}

ULong draw(ULong count) {
    random_state ^= random_state << 13;
    random_state ^= random_state >> 7;
    random_state ^= random_state << 17;
    return (random_state * 0x2545F4914F6CDD1DULL >> 32) % count;
}

Bool turns_are_drawn(void) {
    return rate > 0;
}

Bool turns_have_priorities(void) {
    return by_priority;
}

/* Not drawn: threads are created while another one draws. */
ULong first_priority(ULong ordinal) {
    ULong mixed = (ordinal + (ULong)options.seed * 1000003) * 0x9E3779B97F4A7C15ULL;
    return LOWEST_AT_FIRST + ((mixed ^ mixed >> 32) * 0xBF58476D1CE4E5B9ULL >> 33);
}

static Int rest_of_slice(ThreadId thread) {
    Int rest;
    VG_(get_shadow_regs_area)(thread, (UChar *)&rest, 0, offsetof(VexGuestAMD64State, host_EvC_COUNTER), sizeof rest);
    return rest;
}

static void end_slice(ThreadId thread) {
    const Int none = 0;
    Int rest = rest_of_slice(thread);
    if (rest > 0) {
        blocks_skipped += (ULong)rest;
        VG_(set_shadow_regs_area)(thread, 0, offsetof(VexGuestAMD64State, host_EvC_COUNTER), sizeof none, (const UChar *)&none);
    }
    gives_way = 1;
}

Bool may_give_way(void) {
    return turns_are_drawn() && (lock_is_shared() || has_other_processes());
}

Bool give_way(void) {
    ThreadId thread = VG_(get_running_tid)();
    if (!may_give_way() || thread == VG_INVALID_THREADID)
        return False;
    if (turns_given > FREE_TURNS + blocks_run / BLOCKS_OF_TURN || draw(rate) > 0)
        return False;
    turns_given++;
    lock_gives_way();
    end_slice(thread);
    return True;
}

void turn_starts(ThreadId thread, ULong blocks) {
    gives_way = 0;
    turns_begun++;
    blocks_run = blocks - blocks_skipped;
    lock_leaves_system();
}
