#include "options.h"

Options options = {.trace = "run.trace", .labels = True, .callers = 5, .switch_every = BY_SEED, .seed = 1};

void refuse(const HChar *what, const HChar *name) {
    VG_(printf)("pmtrim-record: %s%s\n", what, name);
    VG_(exit)(2);
}

static void add_name(const HChar *text, NameKind kind, Bool written) {
    if (options.name_count == MOST_NAMES)
        refuse("more than 64 names of pools; the last one is ", text);
    options.names[options.name_count++] = (PoolName){text, kind, written};
    options.written = options.written || written;
}

static Int argument_number(const HChar **text) {
    HChar *end;
    Long number = VG_(strtoll10)(*text, &end);
    *text = end;
    return number >= 1 && number <= 6 ? (Int)number : 0;
}

/* FUNCTION or FUNCTION:ADDRESS,LENGTH. A name of C++ may have colons, so it is the last one that counts. */
static void add_persist(const HChar *text) {
    PersistFunction added = {.address = 1, .length = 2};
    HChar *name = VG_(strdup)("options.persist", text);
    HChar *colon = VG_(strrchr)(name, ':');
    if (colon != NULL && VG_(isdigit)(colon[1])) {
        const HChar *rest = colon + 1;
        added.address = argument_number(&rest);
        added.length = *rest == ',' ? (rest++, argument_number(&rest)) : 0;
        if (added.address == 0 || added.length == 0 || *rest != '\0')
            refuse("--persist takes FUNCTION or FUNCTION:ADDRESS,LENGTH, with numbers of arguments from 1 to 6; not ", text);
        *colon = '\0';
    }
    if (options.persist_count == MOST_FUNCTIONS)
        refuse("more than 64 functions for --persist; the last one is ", text);
    added.name = name;
    options.persists[options.persist_count++] = added;
}

Bool take_option(const HChar *word) {
    const HChar *text;
    if VG_STR_CLO (word, "--pool", text)
        add_name(text, PREFIX_OR_FILE, False);
    else if VG_STR_CLO (word, "--pool-file", text)
        add_name(text, VERY_FILE, False);
    else if VG_STR_CLO (word, "--pool-prefix", text)
        add_name(text, PREFIX, False);
    else if VG_STR_CLO (word, "--file", text)
        add_name(text, VERY_FILE, True);
    else if VG_STR_CLO (word, "--file-prefix", text)
        add_name(text, PREFIX, True);
    else if VG_STR_CLO (word, "--persist", text)
        add_persist(text);
    else if VG_STR_CLO (word, "--trace", options.trace) {
    } else if VG_STR_CLO (word, "--parent-trace", options.parent_trace) {
    } else if VG_STR_CLO (word, "--start-after", options.start_after) {
    } else if VG_STR_CLO (word, "--stop-at", options.stop_at) {
    } else if VG_BINT_CLO (word, "--first-event", options.first_event, 1, 2000000000) {
    } else if VG_BINT_CLO (word, "--last-event", options.last_event, 1, 2000000000) {
    } else if VG_BOOL_CLO (word, "--labels", options.labels) {
    } else if VG_BOOL_CLO (word, "--base", options.base) {
    } else if VG_BINT_CLO (word, "--callers", options.callers, 0, MOST_CALLERS) {
    } else if VG_BOOL_CLO (word, "--locked-fences", options.locked_fences) {
    } else if VG_BOOL_CLO (word, "--pmdk", options.pmdk) {
    } else if VG_BOOL_CLO (word, "--record-children", options.children) {
    } else if VG_BOOL_CLO (word, "--process", options.process) {
    } else if VG_BOOL_CLO (word, "--one-trace", options.one_trace) {
    } else if VG_BOOL_CLO (word, "--whole", options.whole) {
    } else if VG_BINT_CLO (word, "--first-process", options.first_process, 0, 2147483647) {
    } else if VG_BINT_CLO (word, "--switch-every", options.switch_every, 0, 1000000) {
    } else if VG_BINT_CLO (word, "--seed", options.seed, 0, 1000000) {
    } else if VG_STR_CLO (word, "--counts", options.counts) {
    } else if VG_BOOL_CLO (word, "--part-each", options.part_each) {
    } else
        return False;
    return True;
}

void check_options(void) {
    if (options.parent_trace != NULL && !options.one_trace)
        options.counts = NULL;
    Bool window = options.start_after != NULL || options.stop_at != NULL || options.first_event > 0 || options.last_event > 0;
    if (options.one_trace && window)
        refuse("--one-trace has no windows: record all, or each process by itself", "");
    if (options.one_trace && options.pmdk)
        refuse("--one-trace and --pmdk don't go together: PMDK lets one process at a time open a pool", "");
}

void print_options(void) {
    VG_(printf)("    see pmtrim-record --help\n");
}
