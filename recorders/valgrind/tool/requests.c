#include "requests.h"
#include "../pmtrim_record.h"
#include "events.h"
#include "ignored.h"
#include "labels.h"
#include "options.h"
#include "windows.h"

/* The requests that PMDK makes of pmemcheck, as its pmemcheck.h numbers them. */
enum {
    PMC_REGISTER_MAPPING = VG_USERREQ_TOOL_BASE('P', 'C'),
    PMC_REGISTER_FILE,
    PMC_REMOVE_MAPPING,
    PMC_CHECK_MAPPING,
    PMC_PRINT_MAPPINGS,
    PMC_FLUSH,
    PMC_FENCE,
    PMC_SET_CLEAN = PMC_FENCE + 11,
    PMC_LAST = PMC_REGISTER_MAPPING + 64
};

static Bool take_claim(ThreadId thread, const UWord *words) {
    const HChar *label = label_at(thread, VG_(get_IP)(thread), CLAIMING);
    switch (words[0]) {
    case PMTRIM_REQUEST_IS_PERSIST:
        note_is_persist(thread, claimed_memory(words[1], words[2]), label);
        return True;
    case PMTRIM_REQUEST_IS_ORDERED_BEFORE:
        note_is_ordered_before(thread, claimed_memory(words[1], words[2]), claimed_memory(words[3], words[4]), label);
        return True;
    case PMTRIM_REQUEST_FILE_IS_PERSIST:
        note_is_persist(thread, claimed_file((Int)words[1], words[2], words[3]), label);
        return True;
    case PMTRIM_REQUEST_FILE_IS_ORDERED_BEFORE: {
        const ULong *of_file = (const ULong *)words[1];
        note_is_ordered_before(thread, claimed_file((Int)of_file[0], of_file[1], of_file[2]),
                               claimed_file((Int)of_file[3], of_file[4], of_file[5]), label);
        return True;
    }
    case PMTRIM_REQUEST_START:
        begin_or_go_on(thread);
        return True;
    case PMTRIM_REQUEST_STOP:
        close_window();
        return True;
    default:
        return False;
    }
}

static Bool take_pmdk(const UWord *words, UWord *answer) {
    *answer = 0;
    switch (words[0]) {
    case PMC_REGISTER_MAPPING:
        persistent(words[1], words[2]);
        *answer = 1;
        return True;
    case PMC_REMOVE_MAPPING:
        not_persistent(words[1], words[2]);
        *answer = 1;
        return True;
    case PMC_CHECK_MAPPING:
        *answer = (UWord)how_persistent(words[1], words[2]);
        return True;
    case PMC_SET_CLEAN:
        declared_clean(words[1], words[2]);
        return True;
    default:
        return words[0] > PMC_REGISTER_MAPPING && words[0] < PMC_LAST;
    }
}

Bool take_request(ThreadId thread, UWord *words, UWord *answer) {
    if (VG_IS_TOOL_USERREQ('P', 'T', words[0])) {
        *answer = 1;
        return take_claim(thread, words);
    }
    return options.pmdk && VG_IS_TOOL_USERREQ('P', 'C', words[0]) && take_pmdk(words, answer);
}
