#include "parting.h"
#include "common.h"
#include "libvex.h"
#include "lock.h"
#include "options.h"
#include "pools.h"
#include "processes.h"
#include "turns.h"

extern VexControl vex_control;
/* Not the one for a tool's callbacks: this is called within a call of the system, as where something is unmapped. */
extern void VG_(discard_translations)(Addr start, ULong length, const HChar *who);

Bool asks;

/* The access before which the thread gave way: when it comes to it again, it goes on. By its place in the instruction, since one that has
 * two begins again with the first. */
typedef struct {
    Addr instruction;
    UWord access;
} Parted;

static Parted *parted;

/* A line of memory that the running thread has used in its turn: nobody else comes between. */
typedef struct {
    Addr line;
    ULong turn;
    Bool stored;
} Used;

enum { LINE_BITS = 6, MOST_USED = 1024 };

static Used used[MOST_USED];

/* At each access all registers stand in the thread's state. */
static void translate_so(void) {
    asks = True;
    VG_(clo_px_file_backed) = VexRegUpdAllregsAtMemAccess;
    vex_control.iropt_register_updates_default = VexRegUpdAllregsAtMemAccess;
    VG_(clo_vex_control).iropt_register_updates_default = VexRegUpdAllregsAtMemAccess;
}

void begin_parting(void) {
    parted = VG_(calloc)("parting.parted", VG_N_THREADS, sizeof *parted);
    if (options.part_each || (options.parent_trace != NULL && options.one_trace && turns_are_drawn()))
        translate_so();
}

void part_from_now_on(void) {
    if (asks || !turns_are_drawn())
        return;
    translate_so();
    VG_(discard_translations)(0, ~0UL, "part_from_now_on");
}

static Bool comes_again(ThreadId thread, Addr instruction, UWord access) {
    Parted *before = &parted[thread];
    if (before->instruction != instruction || access > before->access)
        return False;
    if (access == before->access)
        before->instruction = 0;
    return True;
}

/* The lines of an access; false where it is of memory in which threads are not seen to meet: locks may be anywhere. */
static Bool find_lines(Addr address, UWord what, LineAccess *access) {
    enum { PROCESS_SHIFT = 48 };
    ULong place = address | 1ULL << 63 | (ULong)own_process() << PROCESS_SHIFT;
    SizeT room, length = what >> LENGTH_SHIFT;
    if (!find_in_pools(address, &place, &room) && !(what & ASK_LOCKED))
        return False;
    access->first = place >> LINE_BITS;
    access->last = (place + (length > 0 ? length - 1 : 0)) >> LINE_BITS;
    return True;
}

static Bool leaves(ThreadId thread, Addr instruction, UWord access) {
    parted[thread] = (Parted){instruction, access};
    common->meetings.parted++;
    return True;
}

/* Whether the thread has used the line so in this turn already; if not, that it has now. */
static Bool was_used(Addr address, SizeT length, Bool stores) {
    Addr line = address >> LINE_BITS;
    Used *before = &used[line % MOST_USED];
    if ((address + length - 1) >> LINE_BITS != line)
        return False;
    if (before->line == line && before->turn == turns_begun && (before->stored || !stores))
        return True;
    *before = (Used){line, turns_begun, stores};
    return False;
}

UWord ask(Addr address, UWord what, Addr instruction) {
    ThreadId thread = VG_(get_running_tid)();
    UWord number = what >> ACCESS_SHIFT & MOST_ACCESSES;
    LineAccess access = {
        .who = (UInt)own_process() << 16 | thread, .stores = (what & ASK_STORE) != 0, .instruction = instruction};
    if (thread == VG_INVALID_THREADID)
        return 0;
    if (options.part_each)
        return !comes_again(thread, instruction, number) && leaves(thread, instruction, number);
    Bool place = has_met(instruction);
    if (!may_give_way() || (was_used(address, what >> LENGTH_SHIFT, access.stores) && !place) ||
        !find_lines(address, what, &access))
        return 0;
    if ((meets(&access) || place) && !comes_again(thread, instruction, number)) {
        common->meetings.points++;
        if (give_way())
            return leaves(thread, instruction, number);
    }
    note_access(&access);
    return 0;
}
