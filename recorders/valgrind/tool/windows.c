#include "windows.h"
#include "bases.h"
#include "children.h"
#include "chunks.h"
#include "events.h"
#include "labels.h"
#include "options.h"
#include "output.h"
#include "pending.h"
#include "pools.h"
#include "threads.h"
#include "unfenced.h"

ULong carried_events, refused_windows;

/* How many events the run had; whether a window was opened, and not only the program begun; whether the carry is being written. */
static ULong passed;
static Bool was_opened, carrying;

static void all_was_outside(void);
static void mark_outside(ULong address, SizeT length);

void begin_windows(void) {
    passed = carried_events = 0;
    was_opened = False;
    all_was_outside();
    if (options.start_after != NULL || options.first_event > 1)
        recording = BEFORE_WINDOW;
}

static void write_carried(const Carried *one) {
    ThreadId thread = one->kind == CARRIED_STORE ? thread_of_serial(one->serial) : one->thread;
    Int number = thread != VG_INVALID_THREADID ? thread_number(thread) : one->number >= 0 ? one->number : number_of_ended();
    if (!begin_event_by(one->kind == CARRIED_STORE ? "store" : "clwb", number))
        return;
    put_address(one->address);
    if (one->kind == CARRIED_STORE)
        put_bytes(one->bytes, one->length);
    end_event(label_of_past(one->instruction));
    carried_events++;
}

static void carry(void) {
    HChar why[96];
    SizeT count, at;
    Carried *all = take_carried(&count, MOST_EVENTS);
    if (all == NULL) {
        VG_(sprintf)(why, "the window would begin with %lu stores and flushes that are not safe", count);
        end_trace(why);
        return;
    }
    restore_rest_in_bases();
    for (at = count; at > 0; at--)
        if (all[at - 1].kind == CARRIED_STORE)
            restore_in_bases(all[at - 1].address, all[at - 1].old, all[at - 1].length);
    for (at = 0; at < count; at++)
        write_carried(&all[at]);
    VG_(free)(all);
}

static ThreadId opener;

static void write_outside_store(ULong address, const UChar *bytes, SizeT length) {
    if (begin_event("store", opener)) {
        put_address(address);
        put_bytes(bytes, length);
        end_event("between windows");
        carried_events++;
    }
}

/* A line that became safe between two windows: what was stored to it, word by word, and a flush that makes it safe at once. */
static void write_made_safe(ULong line, const UChar *bytes, ULong mask) {
    UInt at, end;
    for (at = 0; at < LINE_BYTES; at = end) {
        end = at + 1;
        if ((mask >> at & 1) == 0)
            continue;
        while (end % WORD_BYTES != 0 && (mask >> end & 1) != 0)
            end++;
        write_outside_store(line + at, bytes + at, end - at);
    }
    if (begin_event("clflush", opener)) {
        put_address(line);
        end_event("between windows");
        carried_events++;
    }
}

static void write_fences(void) {
    Int number;
    for (number = 0; number < MOST_THREADS; number++)
        if (take_fenced(number) && begin_event_by("sfence", number)) {
            end_event("between windows");
            carried_events++;
        }
}

void open_window(ThreadId thread) {
    if (recording != BEFORE_WINDOW && recording != AFTER_WINDOW)
        return;
    settle_events();
    Bool again = recording == AFTER_WINDOW;
    was_opened = carrying = True;
    recording = RECORDING;
    opener = thread;
    keep_bases();
    if (again) {
        write_fences();
        take_made_safe(write_made_safe);
    }
    carry();
    end_of_restoring();
    carrying = False;
}

void begin_as_child(ThreadId thread) {
    unwrite_pending();
    if (recording == RECORDING) {
        recording = BEFORE_WINDOW;
        open_window(thread);
    }
}

/* Begins an event of a thread that is gone. */
static Bool begin_inherited_event(const HChar *word, ULong address) {
    was_opened = True;
    if (recording != RECORDING || !begin_event_by(word, number_of_ended()))
        return False;
    put_address(address);
    carried_events++;
    return True;
}

static void end_inherited_event(void) {
    end_event(options.labels ? "before this program was run" : NULL);
}

void carry_store(ULong address, const UChar *bytes, const UChar *old, SizeT length) {
    FollowedStore store = {.thread = VG_INVALID_THREADID, .address = address, .bytes = bytes, .old = old, .length = length};
    store.written = begin_inherited_event("store", address);
    if (store.written) {
        put_bytes(bytes, length);
        end_inherited_event();
    }
    follow_store(&store);
    mark_outside(address, length);
}

void carry_flush(ULong line) {
    Bool written = begin_inherited_event("clwb", line);
    if (written)
        end_inherited_event();
    follow_flush(VG_INVALID_THREADID, line, 0, written);
    leave_unfenced(VG_INVALID_THREADID, written ? number_of_ended() : -1);
}

void begin_or_go_on(ThreadId thread) {
    if (options.one_trace) {
        refused_windows++;
        return;
    }
    if (recording == RECORDING || recording == ENDED) {
        settle_events();
        restart_trace();
        forget_numbers();
        unwrite_pending();
        all_was_outside();
        begin_bases();
        carried_events = 0;
        recording = BEFORE_WINDOW;
    }
    open_window(thread);
}

void close_window(void) {
    refused_windows += options.one_trace;
    if (recording == RECORDING && !options.one_trace) {
        settle_events();
        recording = AFTER_WINDOW;
    }
}

Bool window_was_opened(void) {
    return was_opened;
}

Bool opens_within(SizeT count) {
    ULong first = (ULong)options.first_event;
    return first > passed + 1 && first <= passed + count + 1;
}

void events_passed(ThreadId thread, SizeT count) {
    if (carrying)
        return;
    passed += count;
    count_for_parent(count);
    if (options.first_event > 1 && passed + 1 == (ULong)options.first_event)
        open_window(thread);
    if (options.last_event > 0 && passed == (ULong)options.last_event)
        close_window();
}

/* Which bytes were ever stored to, and which of them last inside of a window that was opened: a bit for each. */

enum { CHUNK_BITS = 20, CHUNK_WORDS = (1 << CHUNK_BITS) / 64 };

typedef struct {
    ULong ever[CHUNK_WORDS], inside[CHUNK_WORDS];
} Marks;

static Chunks stored = {.bits = CHUNK_BITS, .bytes = sizeof(Marks), .name = "windows.chunk"};

static SizeT word_of(ULong address) {
    return address % (1 << CHUNK_BITS) / 64;
}

void mark_stored(ULong address, SizeT length) {
    ULong mask = ~0ULL >> (64 - length) << (address % 64);
    SizeT at = word_of(address);
    if (options.one_trace)
        return;
    Marks *marks = chunk_at(&stored, address, True);
    if ((marks->ever[at] & mask) != mask)
        marks->ever[at] |= mask;
    if (was_opened && recording == RECORDING)
        marks->inside[at] |= mask;
    else if (was_opened)
        marks->inside[at] &= ~mask;
}

static void mark_outside(ULong address, SizeT length) {
    ULong mask = ~0ULL >> (64 - length) << (address % 64);
    Marks *marks = chunk_at(&stored, address, True);
    marks->ever[word_of(address)] |= mask;
    marks->inside[word_of(address)] &= ~mask;
}

static void was_outside(ULong address, void *chunk) {
    Marks *marks = chunk;
    VG_(memset)(marks->inside, 0, sizeof marks->inside);
}

static void all_was_outside(void) {
    each_chunk(&stored, was_outside);
}

Bool was_stored_outside(ULong address, SizeT length) {
    ULong at;
    for (at = address; was_opened && at < address + length; at++) {
        const Marks *marks = chunk_at(&stored, at, False);
        if (marks != NULL && ((marks->ever[word_of(at)] & ~marks->inside[word_of(at)]) >> (at % 64) & 1) != 0)
            return True;
    }
    return False;
}
