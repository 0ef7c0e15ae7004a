#include "unfenced.h"
#include "sorting.h"

/* Those of a thread that lives. */
typedef struct {
    Unfenced *all;
    UInt count, room;
} UnfencedOf;

static UnfencedOf *of_threads;
static ULong *found; /* of one line, a thread's each */
static XArray *left; /* by threads that have ended */

void begin_unfenced(void) {
    of_threads = VG_(calloc)("unfenced.threads", VG_N_THREADS, sizeof *of_threads);
    found = VG_(calloc)("unfenced.found", VG_N_THREADS, sizeof *found);
    left = VG_(newXA)(VG_(malloc), "unfenced.left", VG_(free), sizeof(Unfenced));
}

static Int by_line(const void *one, const void *other) {
    const Unfenced *first = one, *second = other;
    if (first->line != second->line)
        return first->line < second->line ? -1 : 1;
    if (first->written != second->written)
        return first->written ? 1 : -1;
    return first->sequence < second->sequence ? -1 : 1;
}

static Bool is_done_by(const Unfenced *one, const Unfenced *later) {
    return one->line == later->line && one->written == later->written;
}

/* Makes room for one more. A later flush of a line does all that an earlier one of the thread does. */
static void make_room(UnfencedOf *own) {
    UInt at, kept = 0;
    sort(own->all, own->count, sizeof *own->all, by_line);
    for (at = 0; at < own->count; at++)
        if (at + 1 == own->count || !is_done_by(&own->all[at], &own->all[at + 1]))
            own->all[kept++] = own->all[at];
    own->count = kept;
    if (2 * kept < own->room)
        return;
    own->room = 2 * own->room + 16;
    own->all = VG_(realloc)("unfenced.flushes", own->all, own->room * sizeof *own->all);
}

void add_unfenced(const Unfenced *added) {
    UnfencedOf *own = &of_threads[added->thread];
    if (own->count > 0 && is_done_by(&own->all[own->count - 1], added))
        own->count--;
    if (own->count == own->room)
        make_room(own);
    own->all[own->count++] = *added;
}

void end_unfenced(ThreadId thread, void (*act)(const Unfenced *one)) {
    UnfencedOf *own = &of_threads[thread];
    UInt at;
    for (at = 0; at < own->count; at++)
        act(&own->all[at]);
    own->count = 0;
}

Bool leave_unfenced(ThreadId thread, Int number) {
    UnfencedOf *own = &of_threads[thread];
    Bool any = own->count > 0;
    UInt at;
    for (at = 0; at < own->count; at++) {
        own->all[at].thread = VG_INVALID_THREADID;
        own->all[at].number = number;
        VG_(addToXA)(left, &own->all[at]);
    }
    own->count = 0;
    return any;
}

UInt find_unfenced(ULong line, const ULong **sequences) {
    ThreadId thread;
    UInt at, place, count = 0;
    for (thread = 1; thread < VG_N_THREADS; thread++) {
        const UnfencedOf *own = &of_threads[thread];
        ULong last = 0;
        for (at = 0; at < own->count; at++)
            if (own->all[at].line == line && own->all[at].sequence > last)
                last = own->all[at].sequence;
        if (last == 0)
            continue;
        for (place = count++; place > 0 && found[place - 1] < last; place--)
            found[place] = found[place - 1];
        found[place] = last;
    }
    *sequences = found;
    return count;
}

void each_unfenced(void (*act)(Unfenced *one)) {
    ThreadId thread;
    Word at;
    for (thread = 1; thread < VG_N_THREADS; thread++)
        for (at = 0; at < (Word)of_threads[thread].count; at++)
            act(&of_threads[thread].all[at]);
    for (at = 0; at < VG_(sizeXA)(left); at++)
        act(VG_(indexXA)(left, at));
}

SizeT count_unfenced(void) {
    SizeT count = (SizeT)VG_(sizeXA)(left);
    ThreadId thread;
    for (thread = 1; thread < VG_N_THREADS; thread++)
        count += of_threads[thread].count;
    return count;
}

void forget_unfenced(void) {
    ThreadId thread;
    for (thread = 0; thread < VG_N_THREADS; thread++)
        of_threads[thread].count = 0;
    VG_(dropTailXA)(left, VG_(sizeXA)(left));
}
