#include "events.h"
#include "bases.h"
#include "dirty.h"
#include "labels.h"
#include "old.h"
#include "options.h"
#include "output.h"
#include "pending.h"
#include "pools.h"
#include "threads.h"
#include "windows.h"

enum { MOST_CLAIMED = 4096 };

Notes notes;

/* An event that the next one of its instruction may still join: a word of a string instruction, or the flush behind
 * non-temporal stores. */
static struct {
    enum { NOTHING, STEPS, FLUSH } kind;
    ThreadId thread;
    Addr instruction;
    const HChar *label;
    ULong address;
    SizeT length;
    UChar bytes[WORD_BYTES], old[WORD_BYTES];
    Bool has_old;
} waiting;

static ThreadId running(void) {
    ThreadId thread = VG_(get_running_tid)();
    return thread == VG_INVALID_THREADID ? 1 : thread;
}

static void write_store(FollowedStore *store, const HChar *label) {
    store->written = begin_event("store", store->thread);
    if (store->written) {
        put_address(store->address);
        put_bytes(store->bytes, store->length);
        end_event(label);
    }
    follow_store(store);
    mark_stored(store->address, store->length);
    events_passed(store->thread, 1);
}

static void write_line_flush(FlushKind kind, ThreadId thread, ULong address, Addr instruction, const HChar *label) {
    static const HChar *const words[] = {"clwb", "clflushopt", "clflush"};
    ULong line = address & ~(ULong)(LINE_BYTES - 1);
    Bool written = begin_event(words[kind], thread);
    if (written) {
        put_address(line);
        end_event(label);
    }
    if (kind == CLFLUSH)
        follow_full_flush(line);
    else
        follow_flush(thread, line, instruction, written);
    events_passed(thread, 1);
}

static void write_waiting(void) {
    Int kind = waiting.kind;
    waiting.kind = NOTHING;
    if (kind == STEPS) {
        FollowedStore store = {.thread = waiting.thread, .address = waiting.address, .bytes = waiting.bytes,
                               .old = waiting.has_old ? waiting.old : NULL, .length = waiting.length, .instruction = waiting.instruction};
        write_store(&store, waiting.label);
    } else if (kind == FLUSH)
        write_line_flush(CLFLUSHOPT, waiting.thread, waiting.address, waiting.instruction, waiting.label);
}

void settle_events(void) {
    if (waiting.kind != NOTHING)
        write_waiting();
}

void forget_events(void) {
    waiting.kind = NOTHING;
}

static const HChar *label_of_running(Addr instruction, Act act) {
    return recording == RECORDING ? label_at(VG_(get_running_tid)(), instruction, act) : NULL;
}

/* How many bytes of a range lie in the unit in which it starts: a word, or a line. */
static inline SizeT to_end_of(SizeT unit, ULong address, SizeT length) {
    SizeT room = unit - (address & (unit - 1));
    return length < room ? length : room;
}

/* The part of a range that is in a pool and in one unit, from its start on; words that are in no pool are gone over. */
static inline Bool next_part(SizeT unit, Addr *start, SizeT *length, ULong *address, SizeT *part) {
    SizeT room;
    while (*length > 0) {
        if (find_in_pools(*start, address, &room)) {
            *part = within_file(*address, to_end_of(unit, *address, *length < room ? *length : room));
            if (*part > 0)
                return True;
            notes.behind_end++;
        }
        SizeT skipped = to_end_of(WORD_BYTES, *start, *length);
        *start += skipped;
        *length -= skipped;
    }
    return False;
}

static Bool next_piece(Addr *start, SizeT *length, ULong *address, SizeT *piece) {
    return next_part(WORD_BYTES, start, length, address, piece);
}

/* What stands in memory already, and is noted behind the event that is written now. */
static Addr rest_start;
static SizeT rest_length;

void restore_rest_in_bases(void) {
    Addr start = rest_start;
    SizeT length = rest_length, piece;
    ULong address;
    for (; next_piece(&start, &length, &address, &piece); start += piece, length -= piece)
        restore_in_bases(address, find_old(start, piece), piece);
}

/* The unit in which stores are noted: each word, where a window may open behind one, or behind the event that waits. */
static SizeT unit_of_stores(void) {
    return opens_within(LINE_BYTES / WORD_BYTES + 1) ? WORD_BYTES : LINE_BYTES;
}

/* Stores to the words of a line. */
static void write_words(FollowedStore line, const HChar *label) {
    while (line.length > 0) {
        FollowedStore word = line;
        word.length = to_end_of(WORD_BYTES, line.address, line.length);
        write_store(&word, label);
        line.address += word.length;
        line.bytes += word.length;
        line.old = line.old == NULL ? NULL : line.old + word.length;
        line.length -= word.length;
    }
}

/* The same where none of them is written. */
static void pass_over(const FollowedStore *line) {
    SizeT count = words_in(line->address, line->address + line->length);
    count_missing(count);
    follow_store(line);
    mark_stored(line->address, line->length);
    events_passed(line->thread, count);
}

static void note_in_line(const FollowedStore *line, const HChar *label) {
    mark_dirty(line->address);
    if (recording == RECORDING)
        write_words(*line, label);
    else
        pass_over(line);
}

void note_store(Addr start, SizeT length, Addr instruction) {
    ULong address;
    SizeT part;
    const HChar *label = NULL;
    for (; next_part(unit_of_stores(), &start, &length, &address, &part); start += part, length -= part) {
        rest_start = start;
        rest_length = length;
        settle_events();
        rest_start += part;
        rest_length -= part;
        if (label == NULL)
            label = label_of_running(instruction, STORING);
        FollowedStore line = {.thread = running(), .address = address, .bytes = (const UChar *)start, .old = find_old(start, part),
                              .length = part, .instruction = instruction};
        note_in_line(&line, label);
    }
}

/* Whether a step goes on with the word that waits, above or below it. */
static Bool joins(ULong address, SizeT length, Addr instruction) {
    if (waiting.kind != STEPS || waiting.instruction != instruction || waiting.thread != running())
        return False;
    return address / WORD_BYTES == waiting.address / WORD_BYTES &&
           (address == waiting.address + waiting.length || address + length == waiting.address);
}

static void put_beside(UChar *joined, const UChar *bytes, SizeT length, Bool below) {
    if (below)
        VG_(memmove)(joined + length, joined, waiting.length);
    VG_(memcpy)(below ? joined : joined + waiting.length, bytes, length);
}

static void join(ULong address, Addr start, SizeT length) {
    Bool below = address < waiting.address;
    const UChar *old = find_old(start, length);
    put_beside(waiting.bytes, (const UChar *)start, length, below);
    if (old != NULL)
        put_beside(waiting.old, old, length, below);
    waiting.has_old = waiting.has_old && old != NULL;
    if (below)
        waiting.address = address;
    waiting.length += length;
}

void note_step(Addr start, SizeT length, Addr instruction) {
    ULong address;
    SizeT piece;
    for (; next_piece(&start, &length, &address, &piece); start += piece, length -= piece) {
        if (joins(address, piece, instruction)) {
            join(address, start, piece);
            continue;
        }
        rest_start = start;
        rest_length = length;
        settle_events();
        rest_length = 0;
        mark_dirty(address);
        waiting.label = label_of_running(instruction, STORING);
        waiting.kind = STEPS;
        waiting.thread = running();
        waiting.instruction = instruction;
        waiting.address = address;
        waiting.length = piece;
        VG_(memcpy)(waiting.bytes, (const UChar *)start, piece);
        waiting.has_old = find_old(start, piece) != NULL;
        if (waiting.has_old)
            VG_(memcpy)(waiting.old, find_old(start, piece), piece);
    }
}

void note_streamed(Addr start, SizeT length, Addr instruction) {
    ULong address;
    SizeT piece;
    for (; next_piece(&start, &length, &address, &piece); start += piece, length -= piece) {
        ThreadId thread = running();
        if (waiting.kind == FLUSH && waiting.thread == thread && waiting.address / LINE_BYTES == address / LINE_BYTES)
            forget_events();
        note_store(start, piece, instruction);
        waiting.kind = FLUSH;
        waiting.thread = thread;
        waiting.instruction = instruction;
        waiting.label = label_of_running(instruction, STORING);
        waiting.address = address;
        set_open_flush(thread, OPEN_FLUSH);
    }
}

void note_flush(FlushKind kind, Addr place, Addr instruction) {
    ULong address;
    SizeT room;
    if (find_in_pools(place, &address, &room)) {
        settle_events();
        write_line_flush(kind, running(), address, instruction, label_of_running(instruction, SAVING));
        if (kind != CLFLUSH)
            set_open_flush(VG_(get_running_tid)(), OPEN_FLUSH);
    } else if (had_mappings() && recording == RECORDING) {
        if (notes.other_flushes++ == 0)
            notes.first_other_flush = label_of_running(instruction, SAVING);
    }
}

static void write_fence(const HChar *word, ThreadId thread, const HChar *label) {
    settle_events();
    if (begin_event(word, thread))
        end_event(label);
    follow_fence(thread);
    set_open_flush(thread, NO_FLUSH);
    events_passed(thread, 1);
    write_events();
}

void note_fence(Bool full, Addr instruction) {
    if (had_mappings())
        write_fence(full ? "mfence" : "sfence", VG_(get_running_tid)(), label_of_running(instruction, SAVING));
}

void note_locked(Addr instruction) {
    ThreadId thread = VG_(get_running_tid)();
    if (open_flush(thread) != OPEN_FLUSH)
        return;
    if (options.locked_fences)
        write_fence("mfence", thread, label_of_running(instruction, SAVING));
    else {
        notes.locked++;
        set_open_flush(thread, LOCKED_SINCE);
    }
}

static const HChar *label_of(ThreadId thread, Act act) {
    return recording == RECORDING ? label_at(thread, VG_(get_IP)(thread), act) : NULL;
}

void note_bytes(ThreadId thread, ULong address, const UChar *bytes, SizeT length) {
    const HChar *label = label_of(thread, STORING);
    settle_events();
    while (length > 0) {
        SizeT part = to_end_of(unit_of_stores(), address, length);
        FollowedStore line = {.thread = thread, .address = address, .bytes = bytes, .length = part, .instruction = VG_(get_IP)(thread)};
        note_in_line(&line, label);
        address += part;
        bytes += part;
        length -= part;
    }
}

void note_synchronized(ThreadId thread, ULong from, ULong end) {
    Bool any = open_flush(thread) != NO_FLUSH;
    ULong line;
    settle_events();
    for (line = take_dirty(from, end); line < end; line = take_dirty(line, end)) {
        write_line_flush(CLWB, thread, line, VG_(get_IP)(thread), label_of(thread, SAVING));
        any = True;
    }
    if (any)
        write_fence("sfence", thread, label_of(thread, SAVING));
}

Claimed claimed_memory(Addr start, SizeT length) {
    return (Claimed){False, start, length};
}

Claimed claimed_file(Int descriptor, ULong offset, SizeT length) {
    const Pool *pool = pool_of(descriptor);
    Bool found = pool != NULL && offset < POOL_SPAN && length <= POOL_SPAN - offset;
    if (!found && length > 0)
        notes.claims_outside++;
    return (Claimed){True, found ? pool_address(pool, offset) : 0, found ? length : 0};
}

/* The part of a claimed range that is one range of an assertion, from its start on, which is taken off it. */
static Bool next_claimed(Claimed *range, ULong *address, SizeT *piece) {
    SizeT room = range->length;
    if (range->length == 0)
        return False;
    if (range->in_file)
        *address = range->start;
    else if (!find_in_pools(range->start, address, &room)) {
        notes.claims_outside++;
        return False;
    }
    *piece = range->length < room ? range->length : room;
    if (*piece > MOST_CLAIMED)
        *piece = MOST_CLAIMED;
    range->start += *piece;
    range->length -= *piece;
    return True;
}

void note_is_persist(ThreadId thread, Claimed range, const HChar *label) {
    ULong address;
    SizeT piece;
    settle_events();
    while (next_claimed(&range, &address, &piece)) {
        if (begin_event("isPersist", thread)) {
            put_address(address);
            put_number(piece);
            end_event(label);
        }
        events_passed(thread, 1);
    }
}

/* An order can't be judged where the later range was stored to outside of the window: when the first became safe is not known. */
static void write_ordered(ThreadId thread, ULong one, SizeT piece, ULong two, SizeT other, const HChar *label) {
    if (recording == RECORDING && was_stored_outside(two, other))
        notes.set_aside++;
    else if (begin_event("isOrderedBefore", thread)) {
        put_address(one);
        put_number(piece);
        put_address(two);
        put_number(other);
        end_event(label);
    }
    events_passed(thread, 1);
}

void note_is_ordered_before(ThreadId thread, Claimed first, Claimed second, const HChar *label) {
    ULong one, two;
    SizeT piece, other;
    settle_events();
    while (next_claimed(&first, &one, &piece)) {
        Claimed rest = second;
        while (next_claimed(&rest, &two, &other))
            write_ordered(thread, one, piece, two, other, label);
    }
}
