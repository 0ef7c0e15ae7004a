#include "ignored.h"
#include "options.h"
#include "pools.h"
#include "sorting.h"

/* A range of bytes, in memory or in the trace. */
typedef struct {
    ULong start, length;
} Span;

ULong ended_ignoring;

static XArray *registered; /* of memory: what the program calls persistent */
static XArray *ignored;    /* of the trace, not in order */

static XArray *spans(XArray **list) {
    if (*list == NULL)
        *list = VG_(newXA)(VG_(malloc), "ignored.spans", VG_(free), sizeof(Span));
    return *list;
}

static void add_span(XArray **list, ULong start, ULong length) {
    Span added = {start, length};
    if (length > 0)
        VG_(addToXA)(spans(list), &added);
}

/* Takes a range out of a list; how many bytes of it were there. */
static SizeT take_out(XArray **of, ULong start, ULong length) {
    XArray *list = spans(of);
    ULong end = start + length;
    SizeT taken = 0;
    Word at;
    for (at = VG_(sizeXA)(list) - 1; at >= 0; at--) {
        Span old = *(Span *)VG_(indexXA)(list, at);
        ULong old_end = old.start + old.length, from = old.start > start ? old.start : start, to = old_end < end ? old_end : end;
        if (from >= to)
            continue;
        taken += to - from;
        VG_(removeIndexXA)(list, at);
        if (old.start < start)
            add_span(of, old.start, start - old.start);
        if (end < old_end)
            add_span(of, end, old_end - end);
    }
    return taken;
}

/* The parts of a range that are in pools. */
static void each_in_pools(Addr start, SizeT length, void (*act)(ULong address, SizeT length)) {
    ULong address;
    SizeT room, piece;
    for (; length > 0; start += piece, length -= piece) {
        piece = 1;
        if (find_in_pools(start, &address, &room)) {
            piece = room < length ? room : length;
            act(address, piece);
        }
    }
}

static void ignore(ULong address, SizeT length) {
    add_span(&ignored, address, length);
}

/* Memory that was ignored is freed, or used again: what comes there now is not to be hidden. */
static void end_ignoring(ULong address, SizeT length) {
    ended_ignoring += take_out(&ignored, address, length) > 0;
}

void persistent(Addr start, SizeT length) {
    take_out(&registered, start, length);
    add_span(&registered, start, length);
    if (!covers_mapping(start, length))
        each_in_pools(start, length, end_ignoring);
}

void not_persistent(Addr start, SizeT length) {
    take_out(&registered, start, length);
    if (!covers_mapping(start, length))
        each_in_pools(start, length, ignore);
}

void declared_clean(Addr start, SizeT length) {
    each_in_pools(start, length, ignore);
}

Int how_persistent(Addr start, SizeT length) {
    XArray *list = spans(&registered);
    SizeT found = 0;
    Word at;
    for (at = 0; at < VG_(sizeXA)(list); at++) {
        const Span *span = VG_(indexXA)(list, at);
        Addr from = span->start > start ? span->start : start;
        Addr to = span->start + span->length < start + length ? span->start + span->length : start + length;
        if (from < to)
            found += to - from;
    }
    return found == 0 ? 0 : found == length ? 1 : 2;
}

static Int by_start(const void *one, const void *other) {
    ULong first = ((const Span *)one)->start, second = ((const Span *)other)->start;
    return first < second ? -1 : first > second;
}

static ULong write_spans(const HChar *path, const XArray *sorted) {
    VgFile *file = VG_(fopen)(path, VKI_O_CREAT | VKI_O_TRUNC | VKI_O_WRONLY, 0666);
    Word at = 0, count = VG_(sizeXA)(sorted);
    ULong written = 0;
    if (file == NULL) {
        VG_(printf)("pmtrim-record: %s can't be written\n", path);
        return 0;
    }
    while (at < count) {
        Span joined = *(Span *)VG_(indexXA)(sorted, at);
        for (at++; at < count; at++) {
            const Span *next = VG_(indexXA)(sorted, at);
            if (next->start > joined.start + joined.length)
                break;
            if (next->start + next->length > joined.start + joined.length)
                joined.length = next->start + next->length - joined.start;
        }
        VG_(fprintf)(file, "0x%llx:%llu\n", joined.start, joined.length);
        written++;
    }
    VG_(fclose)(file);
    return written;
}

ULong write_ignored(const HChar *path) {
    if (ignored == NULL || VG_(sizeXA)(ignored) == 0)
        return 0;
    sort(VG_(indexXA)(ignored, 0), (SizeT)VG_(sizeXA)(ignored), sizeof(Span), by_start);
    return write_spans(path, ignored);
}
