#include "summary.h"
#include "calls.h"
#include "children.h"
#include "common.h"
#include "cut.h"
#include "events.h"
#include "ignored.h"
#include "instrument.h"
#include "missing.h"
#include "options.h"
#include "others.h"
#include "output.h"
#include "parting.h"
#include "pools.h"
#include "processes.h"
#include "threads.h"
#include "turns.h"
#include "windows.h"

enum { TEXT_BYTES = 4000 };

static HChar text[TEXT_BYTES];
static Int length;

static void add(const HChar *format, ...) {
    va_list arguments;
    va_start(arguments, format);
    length += (Int)VG_(vsnprintf)(text + length, TEXT_BYTES - length, format, arguments);
    va_end(arguments);
    if (length > TEXT_BYTES - 1)
        length = TEXT_BYTES - 1;
}

/* What is not in the trace, for the line and for the file beside the trace; whether there is such. */
static Bool add_missing(void) {
    Missing all[MOST_MISSING];
    Int count = find_missing(all), at;
    for (at = 0; at < count; at++) {
        add("; %s%s", at == 0 ? "not recorded: " : "", all[at].what);
        if (all[at].more != NULL)
            add(": %llu%s", all[at].count, all[at].more);
    }
    write_missing(all, count);
    return count > 0;
}

static const HChar *recorder_name(void) {
    return "pmtrim-record: ";
}

static void add_switches(void) {
    if (carried_events > 0)
        add(", %llu carried into the window", carried_events);
    if (thread_count() > 1)
        add(", %llu switch%s between threads", switches().all, switches().all == 1 ? "" : "es");
    if (thread_count() > 1 && common->meetings.points > 0)
        add(", turns ended before %llu of %llu accesses at which threads meet", common->meetings.parted, common->meetings.points);
}

/* Threads that never met, which no seed changes; and where none could be stopped between its load and its store. */
static void print_meeting(void) {
    if (thread_count() > 1 && common->meetings.points == 0 && (asks || !turns_are_drawn()))
        VG_(printf)("%sno turn could end before an access: %s\n", recorder_name(),
                    turns_are_drawn() ? "the threads share no line of a pool and no lock, and other memory is no place for it"
                                      : "with --switch-every 0 threads give way only where they wait");
    if (thread_count() > 1 && switches().all > 0 && switches().back == 0)
        VG_(printf)("%sthe threads ran one after another: none went on between two events of another one, so the trace shows no more than "
                    "one thread would\n",
                    recorder_name());
}

/* Why there is no pool, though files were mapped or written; NULL if none were. */
static const HChar *why_others(void) {
    static HChar why[2 * NAMES_BYTES + 100];
    HChar mapped[NAMES_BYTES], written[NAMES_BYTES];
    Int mapped_count = name_others(MAPPED, mapped), written_count = name_others(ONLY_WRITTEN, written), end;
    if (mapped_count + written_count == 0)
        return NULL;
    end = (Int)VG_(sprintf)(why, "no file counts as a pool: ");
    if (mapped_count > 0)
        end += (Int)VG_(sprintf)(why + end, "%s %s mapped (see --pool)", mapped, mapped_count == 1 ? "was" : "were");
    if (written_count > 0)
        VG_(sprintf)(why + end, "%s%s %s written (see --file)", mapped_count > 0 ? ", " : "", written, written_count == 1 ? "was" : "were");
    return why;
}

/* Why the trace has no event. */
static const HChar *why_empty(void) {
    const HChar *why;
    if (recording == ENDED)
        return "no event could be written";
    if (had_pools())
        return "no store, flush or fence of a pool came in the window";
    why = why_others();
    if (why != NULL)
        return why;
    return options.written ? "no file was opened or mapped that counts as a pool: see --file and --pool"
                           : "no file was mapped that counts as a pool: see --pool, and --file for a file that is written";
}

/* Says beside a trace that did not end too early where it is not all of what happened all the same. */
static void say_cut(void) {
    if (recording == ENDED)
        return;
    if (event_count() == 0)
        write_cut(0, why_empty());
    else if (recording == AFTER_WINDOW && event_counts.after > 0)
        write_cut(event_count(), "the window was closed here, and events came after it");
    else if (becomes_another())
        write_cut(event_count(), "the program became another one here");
    else
        end_cut();
}

/* A name as a word for the shell, with an ending. */
static void add_word(const HChar *name, const HChar *ending) {
    const HChar *at;
    Bool plain = True;
    for (at = name; *at != '\0'; at++)
        plain = plain && (VG_(isdigit)(*at) || (*at >= 'a' && *at <= 'z') || (*at >= 'A' && *at <= 'Z') ||
                          VG_(strchr)("/._-+,:=@%", *at) != NULL);
    add(plain ? "" : "'");
    for (at = name; *at != '\0'; at++)
        add(*at == '\'' ? "'\\''" : "%c", *at);
    add("%s%s", ending, plain ? "" : "'");
}

/* The command that explains the trace, without the ranges that are ignored, if there are such. */
static void add_next(ULong ignored) {
    if (event_count() == 0) {
        add("; %s", why_empty());
        return;
    }
    if (options.whole)
        return;
    add("; next: pmtrim explain ");
    if (options.labels) {
        add("--labels ");
        add_word(trace_path(), ".labels");
        add(" ");
    }
    if (ignored > 0) {
        add("--ignore-file ");
        add_word(trace_path(), ".ignore");
        add(" ");
    }
    add_word(trace_path(), "");
}

/* What became of the processes of one trace. */
static void print_processes(void) {
    UInt killed = processes_killed();
    if (killed > 0)
        VG_(printf)("%s%u process%s killed while it ran; the last thing that it did may be missing\n", recorder_name(), killed,
                    killed == 1 ? " was" : "es were");
}

/* Which the pool is, and where there are several which addresses they have. */
static void print_pools(void) {
    const Pool *pool;
    Int number;
    if (pool_numbered(0) != NULL && pool_numbered(1) == NULL)
        VG_(printf)("%sthe pool is %s\n", recorder_name(), from_folder(pool_name(pool_numbered(0))));
    for (number = 0; pool_numbered(1) != NULL && (pool = pool_numbered(number)) != NULL; number++)
        VG_(printf)("%s%s has the addresses from 0x%llx on\n", recorder_name(), pool_name(pool), pool_address(pool, 0));
}

/* Which files were taken by the form of --pool that may mean a file or a prefix. */
static void print_taken(void) {
    const Pool *pool;
    Int word, number, taken;
    for (word = 0; word < options.name_count; word++) {
        const PoolName *name = &options.names[word];
        if (name->kind != PREFIX_OR_FILE)
            continue;
        length = 0;
        taken = 0;
        for (number = 0; (pool = pool_numbered(number)) != NULL; number++)
            if (pool_taken_by(pool) == name)
                add("%s%s", taken++ > 0 ? ", " : "", pool_name(pool));
        VG_(printf)("%s--pool %s took %s; --pool=FILE takes one file, and --pool-prefix those whose names begin so\n", recorder_name(),
                    name->text, taken > 0 ? text : "no file");
    }
}

static void add_names(const HChar *const *names, Int count) {
    Int at;
    for (at = 0; at < count; at++)
        add("%s%s", at > 0 ? ", " : "", names[at]);
}

/* The functions that were named and not called, and names that several functions have. */
static void print_functions(void) {
    const WantedName *name;
    Int number;
    Bool called;
    for (number = 0; (name = wanted_function(number, &called)) != NULL; number++) {
        length = 0;
        if (!called) {
            add("the function %s was never called by that name: is it inlined, or has it no symbol?", name->wanted);
            add(name->similar_count > 0 ? " Called were: " : "");
            add_names(name->similar, name->similar_count);
        } else if (name->called_count > 1) {
            add("%s is the name of several functions: ", name->wanted);
            add_names(name->called, name->called_count);
        } else
            continue;
        VG_(printf)("%s%s\n", recorder_name(), text);
    }
}

/* For the program that records several seeds. */
static void write_counts(void) {
    HChar line[128];
    SysRes opened;
    if (options.counts == NULL)
        return;
    opened = VG_(open)(options.counts, VKI_O_WRONLY | VKI_O_CREAT | VKI_O_TRUNC, 0666);
    if (sr_isError(opened))
        return;
    VG_(sprintf)(line, "%llu %llu %llu\n", event_count(), thread_count(), common->meetings.points);
    VG_(write)((Int)sr_Res(opened), line, (Int)VG_(strlen)(line));
    VG_(close)((Int)sr_Res(opened));
}

void print_summary(void) {
    HChar path[TEXT_BYTES / 4];
    settle_events();
    write_trace();
    keep_bases();
    say_cut();
    print_processes();
    print_pools();
    print_meeting();
    print_taken();
    print_functions();
    length = 0;
    VG_(snprintf)(path, sizeof path, "%s.ignore", trace_path());
    ULong ignored = write_ignored(path);
    if (ignored > 0)
        VG_(printf)("%s%llu range%s that the program calls clean or not persistent %s in %s\n", recorder_name(), ignored,
                    ignored == 1 ? "" : "s", ignored == 1 ? "stands" : "stand", path);
    if (ended_ignoring > 0)
        VG_(printf)("%s%llu range%s of that kind %s freed or used again, and %s not ignored\n", recorder_name(), ended_ignoring,
                    ended_ignoring == 1 ? "" : "s", ended_ignoring == 1 ? "was" : "were", ended_ignoring == 1 ? "is" : "are");
    add("%s%llu event%s of %llu thread%s", recorder_name(), event_count(), event_count() == 1 ? "" : "s", thread_count(),
        thread_count() == 1 ? "" : "s");
    if (options.one_trace)
        add(" of %u process%s", process_count(), process_count() == 1 ? "" : "es");
    add(" in %s", trace_path());
    add_switches();
    add_missing();
    add_next(ignored);
    VG_(printf)("%s\n", text);
    write_counts();
    if (unknown_instruction != 0)
        VG_(printf)("%sthe program came to %s: if it ended there, build it with -march=x86-64-v3, or without that instruction\n",
                    recorder_name(), unknown_text);
}

void print_summary_of_process(void) {
    length = 0;
    add("%sprocess %d", recorder_name(), VG_(getpid)());
    if (add_missing())
        VG_(printf)("%s\n", text);
    print_functions();
}

void print_unrecorded(void) {
    if (event_counts.missing > 0)
        VG_(printf)("%s%llu event%s of a child process %s not recorded; %s\n", recorder_name(), event_counts.missing,
                    event_counts.missing == 1 ? "" : "s", event_counts.missing == 1 ? "is" : "are",
                    options.parent_trace != NULL ? "the first process had ended before" : "--trace-children yes records them");
}
