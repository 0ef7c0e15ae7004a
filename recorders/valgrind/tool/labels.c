#include "labels.h"
#include "frames.h"
#include "options.h"
#include "returns.h"

enum { TABLE_SIZE = 1 << 16, MOST_LABELS = TABLE_SIZE / 2, MOST_FRAMES = 24, MOST_SHOWN = 2 * MOST_FRAMES, LABEL_BYTES = 400, MOST_NOTED = 4096 };

/* A label by the addresses of its instruction and callers. One that a function further in may yet begin, once it has stored, is made
 * anew when more functions have. */
typedef struct {
    ULong hash;
    Addr addresses[MOST_FRAMES];
    UInt count;
    const HChar *text;
    Bool may_change;
    Int storing; /* how many functions had stored when it was made */
} Label;

static Label *table[TABLE_SIZE];
static Int label_count;
static DiEpoch epoch;

static void forget_labels(void) {
    Int at;
    for (at = 0; at < TABLE_SIZE; at++) {
        if (table[at] != NULL)
            VG_(free)(table[at]);
        table[at] = NULL;
    }
    label_count = 0;
}

static ULong hash_of(const Addr *addresses, UInt count) {
    ULong hash = count;
    UInt at;
    for (at = 0; at < count; at++)
        hash = (hash ^ addresses[at]) * 0x9E3779B97F4A7C15ULL;
    return hash ^ hash >> 32;
}

/* The table's place of these addresses: their label, or where it is to stand. */
static Label **look_up(ULong hash, const Addr *addresses, UInt count) {
    SizeT at = hash % TABLE_SIZE;
    for (; table[at] != NULL; at = (at + 1) % TABLE_SIZE)
        if (table[at]->hash == hash && table[at]->count == count &&
            VG_(memcmp)(table[at]->addresses, addresses, count * sizeof *addresses) == 0)
            break;
    return &table[at];
}

static void append(HChar *text, Int *length, const HChar *added) {
    while (*added != '\0' && *length < LABEL_BYTES - 1) {
        UChar byte = (UChar)*added++;
        text[(*length)++] = byte < ' ' || byte > '~' ? '?' : (HChar)byte;
    }
    text[*length] = '\0';
}

static void append_frame(HChar *text, Int *length, const Frame *frame, Bool first) {
    Bool has_place = frame->place[0] != '\0';
    append(text, length, first ? frame->place : " < ");
    append(text, length, first && has_place ? " " : "");
    append(text, length, frame->function);
    append(text, length, !first && has_place ? " " : "");
    append(text, length, first ? "" : frame->place);
}

/* Functions, by sums of their names. */
typedef struct {
    ULong sums[MOST_NOTED];
    Int count;
} Functions;

/* Those that have stored, or called one that has; and those that flushed or fenced for one of these. */
static Functions storing, helping;

static ULong sum_of(const HChar *name) {
    ULong sum = 1;
    for (; *name != '\0'; name++)
        sum = (sum ^ (UChar)*name) * 0x100000001B3ULL;
    return sum;
}

static Bool has(const Functions *functions, const Frame *frame) {
    ULong sum = sum_of(frame->function);
    Int at;
    for (at = 0; at < functions->count; at++)
        if (functions->sums[at] == sum)
            return True;
    return False;
}

static void note(Functions *functions, const Frame *frame) {
    if (!has(functions, frame) && functions->count < MOST_NOTED)
        functions->sums[functions->count++] = sum_of(frame->function);
}

/* The frames that have source lines, the innermost first, as many as a label may need; how many. */
static Int frames_of(const Addr *addresses, UInt count, Frame *frames, Act act) {
    Int most = act == CLAIMING ? options.callers : MOST_SHOWN - MOST_INLINED, found = 0;
    UInt at;
    for (at = 0; at < count && found <= most; at++)
        found += frames_at(addresses[at], &frames[found]);
    return found;
}

static void set_symbol(Frame *frame, Addr address) {
    frame->place[0] = '\0';
    frame->is_inlined = False;
    VG_(strncpy)(frame->function, symbol_at(address), FUNCTION_BYTES - 1);
    frame->function[FUNCTION_BYTES - 1] = '\0';
}

/* The functions alone, of a program without lines; one of the C library where there is no other. */
static Int symbols_of(const Addr *addresses, UInt count, Frame *frames) {
    Int found = 0;
    UInt at;
    for (at = 0; at < count && (at == 0 || is_in_object(addresses[at])); at++)
        if (!is_in_c_library(addresses[at]))
            set_symbol(&frames[found++], addresses[at]);
    if (found == 0)
        set_symbol(&frames[found++], addresses[0]);
    return found;
}

/* How many of the frames, the innermost first, come before one whose function is among these, or is not. */
static Int count_until(Bool among, const Functions *functions, const Frame *frames, Int count) {
    Int at = 0;
    while (at < count && has(functions, &frames[at]) != among)
        at++;
    return at;
}

/* With which of the frames the label of a flush or fence begins. */
static Int first_saving(const Frame *frames, Int count) {
    Int first = count_until(True, &storing, frames, count), at;
    if (first == count)
        return count_until(False, &helping, frames, count - 1);
    for (at = 0; at < first; at++)
        note(&helping, &frames[at]);
    return first;
}

/* With which of the frames any other label begins. The compiler gives a store of what an inlined function returns the line of that
 * return: it is the caller's. */
static Int first_storing(const Frame *frames) {
    Int at = 0;
    while (frames[at].is_inlined && is_return(frames[at].source))
        at++;
    return at;
}

/* A frame and its callers. */
static void spell(Label *label, Act act) {
    static Frame frames[MOST_SHOWN];
    HChar text[LABEL_BYTES] = "";
    Int length = 0, found = frames_of(label->addresses, label->count, frames, act), first, at;
    if (found == 0)
        found = symbols_of(label->addresses, label->count, frames);
    first = act == SAVING ? first_saving(frames, found) : first_storing(frames);
    for (at = first; act == STORING && at < found; at++)
        note(&storing, &frames[at]);
    for (at = first; at < found && at - first <= options.callers; at++)
        append_frame(text, &length, &frames[at], at == first);
    label->may_change = act == SAVING && !has(&storing, &frames[0]);
    label->storing = storing.count;
    if (label->text == NULL || VG_(strcmp)(label->text, text) != 0)
        label->text = VG_(strdup)("labels.text", text);
}

static void learn_epoch(void) {
    DiEpoch current = VG_(current_DiEpoch)();
    if (current.n != epoch.n || label_count == MOST_LABELS) {
        forget_labels();
        epoch = current;
    }
}

/* The label of these addresses, which is made where it is new. */
static const HChar *label_of_addresses(const Addr *addresses, UInt count, Act act) {
    learn_epoch();
    ULong hash = hash_of(addresses, count);
    Label **place = look_up(hash, addresses, count);
    if (*place == NULL) {
        *place = VG_(calloc)("labels.label", 1, sizeof **place);
        (*place)->hash = hash;
        (*place)->count = count;
        VG_(memcpy)((*place)->addresses, addresses, count * sizeof *addresses);
        spell(*place, act);
        label_count++;
    } else if ((*place)->may_change && (*place)->storing != storing.count) {
        spell(*place, act);
    }
    return (*place)->text;
}

const HChar *label_at(ThreadId thread, Addr instruction, Act act) {
    Addr addresses[MOST_FRAMES];
    UInt count = 1;
    if (!options.labels)
        return NULL;
    if (thread != VG_INVALID_THREADID)
        count = VG_(get_StackTrace)(thread, addresses, MOST_FRAMES, NULL, NULL, 0);
    addresses[0] = instruction;
    return label_of_addresses(addresses, count == 0 ? 1 : count, act);
}

const HChar *label_of_caller(ThreadId thread) {
    Addr addresses[MOST_FRAMES];
    UInt count;
    if (!options.labels)
        return NULL;
    count = VG_(get_StackTrace)(thread, addresses, MOST_FRAMES, NULL, NULL, 0);
    return count > 1 ? label_of_addresses(addresses + 1, count - 1, CLAIMING) : label_of_addresses(addresses, count, CLAIMING);
}

const HChar *label_of_past(Addr instruction) {
    static HChar text[LABEL_BYTES + 32];
    if (!options.labels)
        return NULL;
    VG_(snprintf)(text, sizeof text, "%s (before the window)", label_of_addresses(&instruction, 1, CLAIMING));
    return text;
}

const HChar *place_of(Addr instruction) {
    Frame frames[MOST_INLINED];
    static HChar place[PLACE_BYTES];
    VG_(strncpy)(place, frames_at(instruction, frames) > 0 ? frames[0].place : symbol_at(instruction), PLACE_BYTES - 1);
    return place;
}
