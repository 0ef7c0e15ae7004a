#include "missing.h"
#include "bases.h"
#include "calls.h"
#include "children.h"
#include "events.h"
#include "lock.h"
#include "others.h"
#include "output.h"
#include "pending.h"
#include "pools.h"
#include "syscalls.h"
#include "windows.h"

enum { PATH_BYTES = 4200 };

/* A log, or a database that is not mapped: the pool may be the lesser part of what is saved. */
static Missing other_files(void) {
    static HChar what[NAMES_BYTES + 100];
    HChar names[NAMES_BYTES];
    ULong saves = had_pools() && name_others(WRITTEN_AND_SAVED, names) > 0 ? saves_of_others() : 0;
    if (saves > 0)
        VG_(snprintf)(what, sizeof what, "writes to %s, synced %llu time%s (see --file)", names, saves, saves == 1 ? "" : "s");
    return (Missing){saves, OTHERS, what, NULL};
}

static const HChar *first_flush(void) {
    static HChar more[500];
    if (notes.first_other_flush != NULL)
        VG_(snprintf)(more, sizeof more, ", the first at %s", notes.first_other_flush);
    return more;
}

Int find_missing(Missing all[MOST_MISSING]) {
    const Missing known[] = {
        {event_counts.before, OTHERS, "events before the window", ""},
        {event_counts.after, OTHERS, "events after the window", ""},
        {event_counts.missing, OTHERS, "events after the end of the trace", ""},
        {notes.other_flushes, OTHERS, "flushes of memory that is in no pool", first_flush()},
        {notes.behind_end, OTHERS, "stores behind the end of a pool's file", ""},
        {notes.locked, FENCES, "locked instructions as fences after flushes (--locked-fences notes them)", ""},
        {notes.failed_masks, BYTES, "masks of masked stores, which are noted whole", ""},
        {notes.frames, BYTES, "frames of signal handlers on a stack in a pool, of which Valgrind writes a part", ""},
        {notes.set_aside, OTHERS, "claims that a range is saved before one that was stored to before the window", ""},
        {window_was_opened() ? unfollowed_stores : 0, BYTES,
         "stores before the window that may not be safe, behind 4000000 others", ""},
        {unrestored_stores, OTHERS, "stores before the window that the base has, though they are not safe", ""},
        {notes.claims_outside, OTHERS, "claims on memory that is in no pool", ""},
        {call_counts.unreturned, OTHERS, "calls of a named function that did not return", ""},
        {system_counts.unseen_writes, BYTES, "calls of the system that may have written to a pool's file", ""},
        {system_counts.cut_files, BYTES, "calls of the system that emptied or moved bytes of a pool's file", ""},
        {pool_counts.too_many, OTHERS, "mappings of a 257th pool or a further one", ""},
        {pool_counts.too_far, OTHERS, "mappings and writes of bytes of a file from 1 TiB on", ""},
        {pool_counts.unreadable, BYTES, "pools whose file can't be read back after a write by a descriptor", ""},
        {lost_bases, OTHERS, "bases of pools", ""},
        {events_of_children(), BYTES, "events of children that have traces of their own (--one-trace has all in one)", ""},
        {unrecorded_children, BYTES, "child processes (--trace-children yes records them)", ""},
        {undrawn_turns, OTHERS, "turns that were drawn without the seed", ""},
        {refused_windows, OTHERS, "windows that the program asked for, which one trace of several processes has not", ""},
        other_files(),
    };
    SizeT at;
    Int count = 0;
    for (at = 0; at < sizeof known / sizeof *known; at++)
        if (known[at].count > 0)
            all[count++] = known[at];
    return count;
}

static void name_file(HChar *path) {
    VG_(snprintf)(path, PATH_BYTES, "%s.missing", trace_place());
}

void forget_missing(void) {
    HChar path[PATH_BYTES];
    name_file(path);
    VG_(unlink)(path);
}

void write_missing(const Missing *all, Int count) {
    static const HChar *const words[] = {"bytes", "fences", "others"};
    HChar path[PATH_BYTES], line[NAMES_BYTES + 200];
    struct vg_stat status;
    Int at, length;
    Bool done = True;
    if (count == 0 || sr_isError(VG_(stat)(trace_place(), &status)) || !VKI_S_ISREG(status.mode))
        return;
    name_file(path);
    SysRes opened = VG_(open)(path, VKI_O_CREAT | VKI_O_APPEND | VKI_O_WRONLY, 0666);
    for (at = 0; at < count && !sr_isError(opened) && done; at++) {
        length = (Int)VG_(snprintf)(line, sizeof line, "%s %llu %s%s\n", words[all[at].kind], all[at].count, all[at].what,
                                    all[at].more == NULL ? "" : all[at].more);
        done = VG_(write)((Int)sr_Res(opened), line, length) == length;
    }
    if (sr_isError(opened) || !done)
        VG_(printf)("pmtrim-record: %s can't be written\n", path);
    if (sr_isError(opened))
        return;
    if (!done)
        VG_(do_syscall)(__NR_ftruncate, sr_Res(opened), 0, 0, 0, 0, 0, 0, 0);
    VG_(close)((Int)sr_Res(opened));
}
