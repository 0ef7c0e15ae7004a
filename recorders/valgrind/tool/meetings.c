#include "meetings.h"
#include "common.h"

enum { TABLE_BITS = 14, PROBES = 4 };

static UInt home_of(ULong key) {
    return (UInt)(key * 0x9E3779B97F4A7C15ULL >> (64 - TABLE_BITS));
}

/* The line's place in the table; NULL where it has none. */
static MetLine *find_line(ULong line) {
    UInt at;
    for (at = 0; at < PROBES; at++) {
        MetLine *found = &common->meetings.lines[(home_of(line) + at) % MOST_MET_LINES];
        if (found->line == line && found->loaders != 0)
            return found;
    }
    return NULL;
}

/* A place for it: where there is no free one the line that has the first is forgotten. */
static MetLine *make_line(ULong line) {
    MetLine *home = &common->meetings.lines[home_of(line)], *made = find_line(line);
    UInt at;
    for (at = 0; at < PROBES && made == NULL; at++) {
        MetLine *next = &common->meetings.lines[(home_of(line) + at) % MOST_MET_LINES];
        if (next->loaders == 0)
            made = next;
    }
    if (made == NULL)
        made = home;
    if (made->line != line || made->loaders == 0)
        *made = (MetLine){.line = line};
    return made;
}

static Addr *place_of(Addr instruction) {
    UInt at = home_of(instruction);
    while (common->meetings.places[at] != 0 && common->meetings.places[at] != instruction)
        at = (at + 1) % MOST_PLACES;
    return &common->meetings.places[at];
}

static void add_place(Addr instruction) {
    Addr *place = place_of(instruction);
    if (instruction == 0 || *place != 0 || common->meetings.place_count > MOST_PLACES / 2)
        return;
    *place = instruction;
    common->meetings.place_count++;
}

Bool has_met(Addr instruction) {
    return *place_of(instruction) != 0;
}

static ULong bit_of(UInt who) {
    return 1ULL << ((who >> 16) * 7 + who) % 64;
}

static Bool meets_in(const MetLine *line, const LineAccess *access) {
    Bool stored = line->storer != 0 && line->storer != access->who;
    Bool loaded = access->stores && (line->loaders & ~bit_of(access->who)) != 0;
    if (!loaded && !(stored && (access->stores || !(line->loaders & bit_of(access->who)))))
        return False;
    add_place(access->instruction);
    if (stored)
        add_place(line->stored_at);
    if (loaded)
        add_place(line->loaded_at);
    return True;
}

Bool meets(const LineAccess *access) {
    Bool any = False;
    ULong at;
    for (at = access->first; at <= access->last; at++) {
        const MetLine *line = find_line(at);
        any = (line != NULL && meets_in(line, access)) || any;
    }
    return any;
}

void note_access(const LineAccess *access) {
    ULong at;
    for (at = access->first; at <= access->last; at++) {
        MetLine *line = make_line(at);
        if (access->stores) {
            line->storer = access->who;
            line->stored_at = access->instruction;
            line->loaders = 0;
        } else
            line->loaded_at = access->instruction;
        line->loaders |= bit_of(access->who);
    }
}

void forget_meetings(void) {
    VG_(memset)(&common->meetings, 0, sizeof common->meetings);
}
