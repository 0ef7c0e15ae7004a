#include "pending.h"
#include "chunks.h"
#include "options.h"
#include "output.h"
#include "pools.h"
#include "sorting.h"
#include "threads.h"
#include "unfenced.h"

/* A chunk has the lines of 1 MiB. */
enum { CHUNK_BITS = 20, CHUNK_LINES = (1 << CHUNK_BITS) / LINE_BYTES, MOST_OF_LINE = 256, MOST_STORES = 4000000 };

typedef struct Store Store;
struct Store {
    Store *next;
    ULong sequence;
    Addr instruction;
    UInt serial;
    UChar offset, length;
    Bool written, has_old;
    UChar bytes[WORD_BYTES], old[WORD_BYTES];
};

/* The pending stores to a line, by their order; and what became safe since the window closed. */
typedef struct Line Line;
struct Line {
    Line *next_free;
    Store *first, *last;
    UInt count, thinned_at; /* how many there are, and with how many some are left out */
    Bool made_safe;
    ULong safe_mask;
    UChar *safe;
};

typedef struct {
    Line *lines[CHUNK_LINES];
} Chunk;

ULong unfollowed_stores;

static Chunks all_lines = {.bits = CHUNK_BITS, .bytes = sizeof(Chunk), .name = "pending.chunk"};
static Store *free_stores;
static Line *free_lines;
static ULong sequence, store_count;
static Bool fenced[MOST_THREADS];

/* Places of lines, stores and the room for them */

static Line **place_of_line(ULong address) {
    Chunk *chunk = chunk_at(&all_lines, address, True);
    return &chunk->lines[address % (1 << CHUNK_BITS) / LINE_BYTES];
}

static Line *line_at(ULong address) {
    const Chunk *chunk = chunk_at(&all_lines, address, False);
    return chunk == NULL ? NULL : chunk->lines[address % (1 << CHUNK_BITS) / LINE_BYTES];
}

static Line *new_line(void) {
    Line *line = free_lines;
    if (line == NULL)
        line = VG_(malloc)("pending.line", sizeof *line);
    else
        free_lines = line->next_free;
    *line = (Line){.thinned_at = MOST_OF_LINE};
    return line;
}

static Line *made_line(ULong address) {
    Line **place = place_of_line(address);
    if (*place == NULL)
        *place = new_line();
    return *place;
}

static void free_line(Line **place) {
    Line *line = *place;
    if (line->safe != NULL)
        VG_(free)(line->safe);
    line->next_free = free_lines;
    free_lines = line;
    *place = NULL;
}

static Store *new_store(void) {
    enum { AT_ONCE = 256 };
    Store *store;
    Int at;
    if (free_stores == NULL) {
        Store *more = VG_(malloc)("pending.stores", AT_ONCE * sizeof *more);
        for (at = 0; at < AT_ONCE; at++) {
            more[at].next = free_stores;
            free_stores = &more[at];
        }
    }
    store = free_stores;
    free_stores = store->next;
    store_count++;
    return store;
}

static void free_store(Store *store) {
    store->next = free_stores;
    free_stores = store;
    store_count--;
}

/* Events */

/* The first store of a line becomes safe. Where the trace has a closed window, what happens meanwhile is kept for the next one. */
static void make_safe(Line *line) {
    Store *store = line->first;
    line->first = store->next;
    line->count--;
    if (line->first == NULL)
        line->last = NULL;
    if (recording == AFTER_WINDOW) {
        line->made_safe = True;
        if (line->safe == NULL)
            line->safe = VG_(malloc)("pending.safe", LINE_BYTES);
        if (!store->written) {
            VG_(memcpy)(line->safe + store->offset, store->bytes, store->length);
            line->safe_mask |= ((1ULL << store->length) - 1) << store->offset;
        }
    }
    free_store(store);
}

static void make_safe_until(ULong address, ULong before) {
    Line *line = line_at(address);
    if (line == NULL)
        return;
    while (line->first != NULL && line->first->sequence < before)
        make_safe(line);
    if (line->first == NULL && !line->made_safe)
        free_line(place_of_line(address));
}

static ULong mask_of_store(const Store *store) {
    return ((1ULL << store->length) - 1) << store->offset;
}

/* What stood before a store that is left out stood before those that cover it; where it is not known, it is not known of these. */
static void pass_on_old(const Store *gone, Store *later) {
    ULong rest = mask_of_store(gone);
    UInt at;
    for (; later != NULL && rest != 0; later = later->next) {
        ULong covered = rest & mask_of_store(later);
        for (at = later->offset; at < (UInt)later->offset + later->length; at++)
            if ((covered >> at & 1) != 0 && gone->has_old)
                later->old[at - later->offset] = gone->old[at - gone->offset];
        later->has_old = later->has_old && (covered == 0 || gone->has_old);
        rest &= ~covered;
    }
}

static Store *reversed(Store *first) {
    Store *made = NULL, *next;
    for (; first != NULL; first = next) {
        next = first->next;
        first->next = made;
        made = first;
    }
    return made;
}

/* Whether the bytes of some store were all stored to again; the newest comes first. */
static Bool any_covered(const Store *newest) {
    ULong covered = 0;
    for (; newest != NULL; newest = newest->next) {
        if ((mask_of_store(newest) & ~covered) == 0)
            return True;
        covered |= mask_of_store(newest);
    }
    return False;
}

static void leave_out_covered(ULong address, Line *line, Store *newest) {
    const ULong *flushes;
    UInt passed = 0, count = find_unfenced(address, &flushes);
    ULong covered = 0;
    Store *next;
    for (; newest != NULL; newest = next) {
        next = newest->next;
        for (; passed < count && newest->sequence < flushes[passed]; passed++)
            covered = 0;
        if ((mask_of_store(newest) & ~covered) == 0) {
            pass_on_old(newest, line->first);
            free_store(newest);
            line->count--;
        } else {
            covered |= mask_of_store(newest);
            newest->next = line->first;
            line->first = newest;
        }
    }
}

/* Leaves out stores all of whose bytes are stored to again before a flush comes: no claim can tell. */
static void thin_out(ULong address, Line *line) {
    Store *newest = reversed(line->first);
    if (any_covered(newest)) {
        line->first = NULL;
        leave_out_covered(address, line, newest);
    } else
        line->first = reversed(newest);
    line->thinned_at = 2 * line->count > MOST_OF_LINE ? 2 * line->count : MOST_OF_LINE;
}

static void copy_word(UChar *to, const UChar *from, SizeT length) {
    if (length == WORD_BYTES)
        __builtin_memcpy(to, from, WORD_BYTES);
    else
        VG_(memcpy)(to, from, length);
}

static void add_store(ULong address, Line *line, Store *added) {
    if (line->last != NULL)
        line->last->next = added;
    else
        line->first = added;
    line->last = added;
    if (++line->count >= line->thinned_at)
        thin_out(address, line);
}

/* A store to [from, from + length) of a line, within a word. */
static void follow_word(ULong address, Line *line, const FollowedStore *store, SizeT from, SizeT length) {
    SizeT into = address + from - store->address;
    Store *added = new_store();
    *added = (Store){.sequence = sequence, .instruction = store->instruction, .serial = thread_serial(store->thread),
                     .offset = (UChar)from, .length = (UChar)length, .written = store->written, .has_old = store->old != NULL};
    copy_word(added->bytes, store->bytes + into, length);
    if (store->old != NULL)
        copy_word(added->old, store->old + into, length);
    add_store(address, line, added);
}

void follow_store(const FollowedStore *store) {
    ULong address = store->address & ~(ULong)(LINE_BYTES - 1);
    SizeT from = store->address - address, end = from + store->length, next;
    Line *line;
    if (options.one_trace)
        return;
    line = store_count < MOST_STORES ? made_line(address) : NULL;
    for (; from < end && store_count < MOST_STORES; from = next) {
        next = (from / WORD_BYTES + 1) * WORD_BYTES;
        next = next < end ? next : end;
        sequence++;
        follow_word(address, line, store, from, next - from);
    }
    sequence += words_in(from, end);
    unfollowed_stores += words_in(from, end);
}

void follow_flush(ThreadId thread, ULong line, Addr instruction, Bool written) {
    Unfenced added = {line, ++sequence, instruction, written, thread, -1};
    if (!options.one_trace)
        add_unfenced(&added);
}

void follow_full_flush(ULong line) {
    make_safe_until(line, ++sequence);
}

static void fence_flush(const Unfenced *flush) {
    make_safe_until(flush->line, flush->sequence);
    if (flush->written && recording == AFTER_WINDOW)
        fenced[thread_number(flush->thread)] = True;
}

void follow_fence(ThreadId thread) {
    sequence++;
    end_unfenced(thread, fence_flush);
}

/* All lines, each by its place */

static void (*act_on_line)(ULong address, Line **place);

static void each_line_of(ULong address, void *chunk) {
    Line **places = ((Chunk *)chunk)->lines;
    ULong at;
    for (at = 0; at < CHUNK_LINES; at++)
        if (places[at] != NULL)
            act_on_line(address + at * LINE_BYTES, &places[at]);
}

static void each_line(void (*act)(ULong address, Line **place)) {
    act_on_line = act;
    each_chunk(&all_lines, each_line_of);
}

static void forget_line(ULong address, Line **place) {
    while ((*place)->first != NULL) {
        Store *store = (*place)->first;
        (*place)->first = store->next;
        free_store(store);
    }
    free_line(place);
}

void forget_pending(void) {
    each_line(forget_line);
    forget_unfenced();
    VG_(memset)(fenced, 0, sizeof fenced);
}

static void unwrite_line(ULong address, Line **place) {
    Store *store;
    for (store = (*place)->first; store != NULL; store = store->next)
        store->written = False;
    (*place)->made_safe = False;
    if ((*place)->first == NULL)
        free_line(place);
}

static void unwrite_flush(Unfenced *flush) {
    flush->written = False;
    flush->number = -1;
}

void unwrite_pending(void) {
    each_line(unwrite_line);
    each_unfenced(unwrite_flush);
    VG_(memset)(fenced, 0, sizeof fenced);
}

/* A window opens */

static Carried *carried;
static SizeT carried_count, carried_most;

static Carried *add_carried(Bool *written) {
    Bool had = *written;
    *written = True;
    if (had || ++carried_count > carried_most)
        return NULL;
    return &carried[carried_count - 1];
}

static void take_line(ULong address, Line **place) {
    Store *store;
    thin_out(address, *place);
    for (store = (*place)->first; store != NULL; store = store->next) {
        Carried *added = add_carried(&store->written);
        if (added != NULL)
            *added = (Carried){.kind = CARRIED_STORE, .sequence = store->sequence, .address = address + store->offset,
                               .instruction = store->instruction, .serial = store->serial, .bytes = store->bytes,
                               .old = store->has_old ? store->old : NULL, .length = store->length};
    }
}

static void take_flush(Unfenced *flush) {
    Carried *added = add_carried(&flush->written);
    if (added != NULL)
        *added = (Carried){.kind = CARRIED_FLUSH, .sequence = flush->sequence, .address = flush->line, .instruction = flush->instruction,
                           .thread = flush->thread, .number = flush->number};
}

static Int by_sequence(const void *one, const void *other) {
    ULong first = ((const Carried *)one)->sequence, second = ((const Carried *)other)->sequence;
    return first < second ? -1 : first > second;
}

Carried *take_carried(SizeT *count, SizeT most) {
    SizeT room = store_count + count_unfenced();
    carried_most = room < most ? room : most;
    carried = VG_(malloc)("pending.carried", (carried_most + 1) * sizeof *carried);
    carried_count = 0;
    each_line(take_line);
    each_unfenced(take_flush);
    *count = carried_count;
    if (carried_count > carried_most) {
        VG_(free)(carried);
        return NULL;
    }
    sort(carried, carried_count, sizeof *carried, by_sequence);
    return carried;
}

Bool take_fenced(Int number) {
    Bool had = fenced[number];
    fenced[number] = False;
    return had;
}

static void (*tell_made_safe)(ULong line, const UChar *bytes, ULong mask);

static void tell_line(ULong address, Line **place) {
    Line *line = *place;
    if (!line->made_safe)
        return;
    /* where a store in the trace is not safe, what became safe was flushed in the trace, and the fence alone is missing */
    if (line->first == NULL || !line->first->written)
        tell_made_safe(address, line->safe, line->safe_mask);
    line->made_safe = False;
    line->safe_mask = 0;
    if (line->first == NULL)
        free_line(place);
}

void take_made_safe(void (*tell)(ULong line, const UChar *bytes, ULong mask)) {
    tell_made_safe = tell;
    each_line(tell_line);
}
