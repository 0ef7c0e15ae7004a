/* pmtrim-record, a Valgrind tool: records what an unmodified program does to persistent memory, as a trace for pmtrim. */
#include "bases.h"
#include "calls.h"
#include "children.h"
#include "core.h"
#include "descriptors.h"
#include "events.h"
#include "inherited.h"
#include "instrument.h"
#include "options.h"
#include "outcome.h"
#include "output.h"
#include "parting.h"
#include "processes.h"
#include "requests.h"
#include "summary.h"
#include "syscalls.h"
#include "threads.h"
#include "turns.h"
#include "windows.h"

static void no_debug_options(void) {
}

static void begin(void) {
    Bool has_trace;
    check_options();
    reserve_descriptors();
    begin_threads();
    begin_calls();
    begin_windows();
    begin_parting();
    if (options.children && !options.one_trace)
        begin_children();
    begin_inherited();
    if (options.parent_trace == NULL)
        take_trace(options.trace);
    has_trace = begin_processes();
    if (!has_trace)
        leave_trace();
    else if (options.one_trace && options.parent_trace != NULL)
        open_common_trace(path_for_process());
    else {
        open_trace(path_for_process());
        begin_bases();
    }
    give_up_process_turn();
}

static void finish(Int status) {
    if (recording == OFF)
        print_unrecorded();
    else if (!options.one_trace || end_process()) {
        print_summary();
        release_trace();
    } else
        print_summary_of_process();
    write_outcome();
    give_up_process_turn();
}

static void before_options(void) {
    VG_(details_name)("pmtrim-record");
    VG_(details_version)(NULL);
    VG_(details_description)("records what a program does to persistent memory");
    VG_(details_copyright_author)("Copyright: its authors. Licence: GPL-2.0-or-later.");
    VG_(details_bug_reports_to)("the authors of pmtrim");
    VG_(details_avg_translation_sizeB)(400);
    VG_(basic_tool_funcs)(begin, instrument, finish);
    VG_(needs_command_line_options)(take_option, print_options, no_debug_options);
    VG_(needs_client_requests)(take_request);
    VG_(needs_syscall_wrapper)(before_call, after_call);
    VG_(track_post_mem_write)(written_by_system);
    VG_(track_pre_thread_ll_create)(thread_created);
    VG_(track_pre_thread_ll_exit)(thread_ends);
    VG_(track_start_client_code)(turn_starts);
    VG_(atfork)(NULL, in_parent, in_child);
}

VG_DETERMINE_INTERFACE_VERSION(before_options)
