#include "children.h"
#include "bases.h"
#include "calls.h"
#include "cut.h"
#include "events.h"
#include "inherited.h"
#include "missing.h"
#include "options.h"
#include "others.h"
#include "outcome.h"
#include "output.h"
#include "pending.h"
#include "pools.h"
#include "processes.h"
#include "summary.h"
#include "syscalls.h"
#include "threads.h"
#include "windows.h"

ULong unrecorded_children;

static Bool told_of_execution;
static ULong *of_children, *of_parent;

void begin_children(void) {
    SysRes mapped = VG_(do_syscall)(__NR_mmap, 0, VKI_PAGE_SIZE, VKI_PROT_READ | VKI_PROT_WRITE, VKI_MAP_SHARED | VKI_MAP_ANONYMOUS,
                                    (RegWord)-1, 0, 0, 0);
    of_parent = of_children;
    of_children = sr_isError(mapped) ? NULL : (ULong *)sr_Res(mapped);
}

void count_for_parent(SizeT count) {
    if (of_parent != NULL)
        __atomic_fetch_add(of_parent, count, __ATOMIC_RELAXED);
}

ULong events_of_children(void) {
    return of_children == NULL ? 0 : __atomic_load_n(of_children, __ATOMIC_RELAXED);
}

const HChar *absolute(const HChar *path) {
    const HChar *folder = VG_(get_startup_wd)();
    HChar *whole;
    if (path[0] == '/' || folder == NULL)
        return path;
    whole = VG_(malloc)("children.path", VG_(strlen)(folder) + VG_(strlen)(path) + 2);
    VG_(sprintf)(whole, "%s/%s", folder, path);
    return whole;
}

const HChar *from_folder(const HChar *path) {
    const HChar *folder = VG_(get_startup_wd)();
    SizeT length = folder == NULL ? 0 : VG_(strlen)(folder);
    return length > 1 && VG_(strncmp)(path, folder, length) == 0 && path[length] == '/' ? path + length + 1 : path;
}

/* The programs that this one becomes or begins learn that they are children, by words of their command lines. */
static void tell_descendants(const HChar *path) {
    HChar *word = VG_(malloc)("children.word", VG_(strlen)(path) + sizeof "--parent-trace=");
    HChar *first = VG_(malloc)("children.word", 32);
    VG_(sprintf)(word, "--parent-trace=%s", path);
    VG_(sprintf)(first, "--first-process=%d", VG_(getpid)());
    VG_(addToXA)(VG_(args_for_valgrind), &word);
    VG_(addToXA)(VG_(args_for_valgrind), &first);
}

/* FILE.PID; where that is there already, since the same process was another program before, FILE.PID.2 and so on. */
static const HChar *path_for_child(const HChar *path) {
    HChar *own = VG_(malloc)("children.path", VG_(strlen)(path) + 32);
    struct vg_stat status;
    Int number;
    VG_(sprintf)(own, "%s.%d", path, VG_(getpid)());
    for (number = 2; !sr_isError(VG_(stat)(own, &status)); number++)
        VG_(sprintf)(own, "%s.%d.%d", path, VG_(getpid)(), number);
    return own;
}

const HChar *path_for_process(void) {
    if (options.parent_trace != NULL)
        return options.one_trace ? options.parent_trace : path_for_child(options.parent_trace);
    tell_descendants(absolute(options.trace));
    return options.trace;
}

/* A shell tries a program in each folder of PATH, and most of them are not there. */
static Bool can_execute(const HChar *path) {
    enum { MAY_EXECUTE = 1 };
    if (path == NULL)
        return True;
    return VG_(am_is_valid_for_client)((Addr)path, 1, VKI_PROT_READ) &&
           !sr_isError(VG_(do_syscall)(__NR_access, (RegWord)path, MAY_EXECUTE, 0, 0, 0, 0, 0, 0));
}

/* The tool runs programs of 64 bits alone: Valgrind ends others, and says less. */
static void tell_of_32_bits(const HChar *path) {
    enum { CLASS_AT = 4, OF_32_BITS = 1 };
    UChar head[CLASS_AT + 1] = {0};
    SysRes opened = VG_(open)(path, VKI_O_RDONLY, 0);
    if (sr_isError(opened))
        return;
    VG_(read)((Int)sr_Res(opened), head, sizeof head);
    VG_(close)((Int)sr_Res(opened));
    if (VG_(memcmp)(head, "\x7f" "ELF", CLASS_AT) == 0 && head[CLASS_AT] == OF_32_BITS)
        VG_(printf)("pmtrim-record: %s is a program of 32 bits, which can't be recorded, and does not run\n", path);
}

Bool becomes_another(void) {
    return told_of_execution;
}

void execution_failed(void) {
    take_process_turn();
    if (told_of_execution) {
        VG_(printf)("pmtrim-record: it did not become another one; %s goes on\n", trace_path());
        take_back();
        begin_cut(trace_place());
        forget_missing();
    }
    told_of_execution = False;
}

void before_execution(const HChar *path) {
    if (options.children && path != NULL && can_execute(path))
        tell_of_32_bits(path);
    if (options.one_trace) {
        before_becoming_another();
        return;
    }
    if (!can_execute(path))
        return;
    if (recording == OFF) {
        print_unrecorded();
        return;
    }
    told_of_execution = True;
    if (options.children)
        VG_(printf)("pmtrim-record: %s ends here: the program becomes another one\n", trace_path());
    else
        VG_(printf)("pmtrim-record: the program becomes another one, which is not recorded; --trace-children yes records it\n");
    print_summary();
    if (options.children)
        hand_on();
    write_becoming();
}

void in_parent(ThreadId thread) {
    child_was_begun();
    if (!options.children)
        unrecorded_children++;
}

/* The child writes to the trace of its parent. */
static void go_on_as_child(ThreadId thread) {
    forget_events();
    only_thread(thread);
    event_counts = (EventCounts){0};
    notes = (Notes){0};
    call_counts = (CallCounts){0};
    pool_counts = (PoolCounts){0};
    system_counts = (SystemCounts){0};
    forget_others();
    become_child();
}

void in_child(ThreadId thread) {
    if (options.one_trace) {
        go_on_as_child(thread);
        return;
    }
    forget_events();
    leave_trace();
    options.counts = NULL;
    forget_others();
    only_thread(thread);
    unrecorded_children = 0;
    if (!options.children) {
        forget_pending();
        return;
    }
    recording = RECORDING;
    begin_windows();
    notes = (Notes){0};
    open_trace(path_for_child(absolute(options.parent_trace != NULL ? options.parent_trace : options.trace)));
    begin_bases();
    begin_children();
    begin_as_child(thread);
}
