#include "output.h"
#include "children.h"
#include "common.h"
#include "cut.h"
#include "missing.h"
#include "options.h"
#include "outcome.h"
#include "threads.h"

/* pmtrim reads no more of a labels file. */
enum { LONGEST_LINE = 1024, MOST_LABEL_BYTES = 67108864 };

Recording recording = RECORDING;
EventCounts event_counts;

static Int descriptors[FILE_COUNT] = {-1, -1};
static const HChar *path_of_trace, *place_of_trace;
static const HChar HEAD[] = "pmtrace 2 64\n";

static HChar *end_of(WrittenFile file) {
    return common->trace.text[file] + common->trace.now.waiting[file];
}

static void set_end(WrittenFile file, const HChar *end) {
    common->trace.now.waiting[file] = (Int)(end - common->trace.text[file]);
}

static void put(WrittenFile file, const HChar *text) {
    HChar *end = end_of(file);
    while (*text != '\0')
        *end++ = *text++;
    set_end(file, end);
}

static HChar *spell(HChar *end, ULong value, UInt base) {
    HChar digits[20];
    Int count = 0;
    do {
        digits[count++] = "0123456789abcdef"[value % base];
        value /= base;
    } while (value > 0);
    while (count > 0)
        *end++ = digits[--count];
    return end;
}

/* For the processes that go on after this one. */
static void keep_progress(void) {
    TraceText *trace = &common->trace;
    UInt next = 1 - trace->counts;
    if (!options.one_trace)
        return;
    trace->kept[next] = trace->now;
    __atomic_store_n(&trace->counts, next, __ATOMIC_RELEASE);
}

void catch_up(void) {
    TraceText *trace = &common->trace;
    trace->now = trace->kept[trace->counts];
    if (trace->ended && recording == RECORDING)
        recording = ENDED;
}

ULong event_count(void) {
    return common->trace.now.events;
}

static Int open_file(const HChar *path, Int flags) {
    SysRes opened = VG_(open)(path, flags | VKI_O_WRONLY, 0666);
    if (sr_isError(opened)) {
        VG_(printf)("pmtrim-record: %s can't be written: %s\n", path, VG_(strerror)(sr_Err(opened)));
        VG_(exit)(2);
    }
    return VG_(safe_fd)((Int)sr_Res(opened));
}

static const HChar *label_path(void) {
    HChar *path = VG_(malloc)("output.labels", VG_(strlen)(path_of_trace) + sizeof ".labels");
    VG_(sprintf)(path, "%s.labels", path_of_trace);
    return path;
}

/* Of flock. The lock ends when the last descriptor of this opening is closed: those of processes that were forked are of it too. */
enum { SHARED = 1, EXCLUSIVE = 2, AT_ONCE = 4, UNLOCK = 8 };

/* Whether no other run has the lock. Where the file system has no locks nobody has. */
static Bool lock_trace(Int kind) {
    SysRes done = VG_(do_syscall)(__NR_flock, (RegWord)descriptors[TRACE_FILE], (RegWord)(kind | AT_ONCE), 0, 0, 0, 0, 0, 0);
    return !sr_isError(done) || sr_Err(done) != VKI_EWOULDBLOCK;
}

/* Any number of runs may write to a device. Of the processes of one trace the first one has the lock, also as another program, while
 * those that it forked still have what it had before. */
void take_trace(const HChar *path) {
    struct vg_stat status;
    descriptors[TRACE_FILE] = open_file(path, VKI_O_CREAT);
    if (VG_(fstat)(descriptors[TRACE_FILE], &status) != 0 || !VKI_S_ISREG(status.mode))
        return;
    if (!lock_trace(EXCLUSIVE) || (options.one_trace && !lock_trace(SHARED)))
        refuse(path, ": another run is writing it: name another file with --trace");
}

void release_trace(void) {
    if (descriptors[TRACE_FILE] >= 0)
        lock_trace(UNLOCK);
}

static void cut(WrittenFile file, ULong length) {
    if (descriptors[file] >= 0) {
        VG_(do_syscall)(__NR_ftruncate, (RegWord)descriptors[file], (RegWord)length, 0, 0, 0, 0, 0, 0);
        VG_(lseek)(descriptors[file], (Off64T)length, VKI_SEEK_SET);
    }
}

static void open_files(const HChar *path, Int flags) {
    path_of_trace = path;
    place_of_trace = absolute(path);
    if (options.labels)
        descriptors[LABEL_FILE] = open_file(label_path(), flags);
}

void open_trace(const HChar *path) {
    if (descriptors[TRACE_FILE] < 0)
        take_trace(path);
    open_files(path, VKI_O_CREAT | VKI_O_TRUNC);
    cut(TRACE_FILE, 0);
    begin_cut(place_of_trace);
    forget_missing();
    begin_outcome(place_of_trace);
    put(TRACE_FILE, HEAD);
    keep_progress();
}

void open_common_trace(const HChar *path) {
    descriptors[TRACE_FILE] = open_file(path, 0);
    if (VG_(getpid)() == common->first_process)
        lock_trace(SHARED);
    open_files(path, 0);
    name_cut(place_of_trace);
}

const HChar *trace_path(void) {
    return path_of_trace;
}

const HChar *trace_place(void) {
    return place_of_trace;
}

void restart_trace(void) {
    event_counts.before += event_count() + event_counts.missing;
    event_counts.missing = 0;
    common->trace.now = (Progress){0};
    common->trace.ended = False;
    cut(TRACE_FILE, 0);
    cut(LABEL_FILE, 0);
    put(TRACE_FILE, HEAD);
    keep_progress();
    recording = RECORDING;
}

void end_trace(const HChar *why) {
    if (recording == RECORDING || recording == BEFORE_WINDOW) {
        recording = ENDED;
        common->trace.ended = True;
        if (event_count() == 0)
            VG_(printf)("pmtrim-record: %s: no event is recorded: %s\n", path_of_trace, why);
        else
            VG_(printf)("pmtrim-record: %s: the trace ends after event %llu: %s\n", path_of_trace, event_count(), why);
        write_cut(event_count(), why);
    }
}

/* Writes what waits: how many bytes were written, and why it were not all, or NULL. */
static const HChar *write_text(WrittenFile file, Int *done) {
    const HChar *text = common->trace.text[file];
    Int length = common->trace.now.waiting[file];
    if (options.one_trace)
        VG_(lseek)(descriptors[file], (Off64T)common->trace.now.written[file], VKI_SEEK_SET);
    for (*done = 0; *done < length;) {
        Int count = VG_(write)(descriptors[file], text + *done, length - *done);
        if (count <= 0)
            return count < 0 ? VG_(strerror)((UWord)(-count)) : "nothing is written";
        *done += count;
    }
    return NULL;
}

static void is_written(WrittenFile file) {
    Progress *now = &common->trace.now;
    now->written[file] += (ULong)now->waiting[file];
    now->waiting[file] = 0;
    keep_progress();
}

/* Cuts the trace behind its last whole line that was written: the events after it are missing. The first line of all is none. */
static void give_up(Int done, const HChar *why) {
    const HChar *text = common->trace.text[TRACE_FILE];
    Int lost = 0, kept = done, at;
    while (kept > 0 && text[kept - 1] != '\n')
        kept--;
    for (at = kept; at < common->trace.now.waiting[TRACE_FILE]; at++)
        lost += text[at] == '\n';
    if (common->trace.now.written[TRACE_FILE] + (ULong)kept == 0)
        lost--;
    cut(TRACE_FILE, common->trace.now.written[TRACE_FILE] + (ULong)kept);
    common->trace.now.events -= (ULong)lost;
    event_counts.missing += (ULong)lost;
    end_trace(why);
}

static void end_labels(ULong event, const HChar *why) {
    if (event_count() > 0)
        VG_(printf)("pmtrim-record: %s.labels ends before event %llu: %s\n", path_of_trace, event, why);
    common->trace.labels_ended = True;
}

static Bool has_labels(void) {
    return descriptors[LABEL_FILE] >= 0 && !common->trace.labels_ended;
}

static void write_labels(void) {
    const HChar *why;
    Int done;
    if (common->trace.now.waiting[LABEL_FILE] == 0)
        return;
    why = write_text(LABEL_FILE, &done);
    if (why != NULL) {
        cut(LABEL_FILE, common->trace.now.written[LABEL_FILE]);
        end_labels((ULong)VG_(strtoll10)(common->trace.text[LABEL_FILE], NULL), why);
    }
    is_written(LABEL_FILE);
}

static void put_label(const HChar *label) {
    ULong bytes = common->trace.now.written[LABEL_FILE] + (ULong)common->trace.now.waiting[LABEL_FILE];
    if (bytes + LONGEST_LINE > MOST_LABEL_BYTES && !options.whole) {
        write_labels();
        end_labels(event_count(), "pmtrim reads at most 67108864 bytes of labels (--callers 0 makes them shorter)");
        return;
    }
    set_end(LABEL_FILE, spell(end_of(LABEL_FILE), event_count(), 10));
    put(LABEL_FILE, " ");
    put(LABEL_FILE, label);
    put(LABEL_FILE, "\n");
}

void write_events(void) {
    if (common->trace.now.waiting[TRACE_FILE] > 0 && descriptors[TRACE_FILE] >= 0) {
        Int done;
        const HChar *why = write_text(TRACE_FILE, &done);
        if (why != NULL)
            give_up(done, why);
        is_written(TRACE_FILE);
    }
}

void write_trace(void) {
    write_events();
    if (has_labels())
        write_labels();
}

/* A copy of a process holds no trace: it may live on when the run has ended. */
static void close_files(void) {
    Int file;
    for (file = 0; file < FILE_COUNT; file++) {
        if (descriptors[file] >= 0)
            VG_(close)(descriptors[file]);
        descriptors[file] = -1;
    }
}

void leave_trace(void) {
    leave_outcome();
    recording = OFF;
    common->trace.now = (Progress){0};
    common->trace.ended = common->trace.labels_ended = False;
    close_files();
    event_counts = (EventCounts){0};
}

/* Ends the trace after the events that wait, as far as these can be written. */
static void end_full(const HChar *why) {
    write_events();
    end_trace(why);
}

static Bool has_room(void) {
    if (event_count() == MOST_EVENTS && !options.whole) {
        end_full("a trace has at most 1000000 events");
        VG_(printf)("pmtrim-record: --parts records a run of any length\n");
    }
    return recording == RECORDING;
}

void count_missing(SizeT count) {
    if (recording == BEFORE_WINDOW)
        event_counts.before += count;
    else if (recording == AFTER_WINDOW)
        event_counts.after += count;
    else
        event_counts.missing += count;
}

Bool begin_event_by(const HChar *word, Int number) {
    if (number < 0)
        end_full("a trace has at most 256 threads at one time, and here is the 257th");
    if (recording != RECORDING || !has_room()) {
        count_missing(1);
        return False;
    }
    common->trace.now.events++;
    put(TRACE_FILE, word);
    put_number((ULong)number);
    return True;
}

Bool begin_event(const HChar *word, ThreadId thread) {
    if (recording != RECORDING) {
        count_missing(1);
        return False;
    }
    Int number = thread_number(thread);
    if (number >= 0)
        note_acting(number);
    return begin_event_by(word, number);
}

void put_number(ULong number) {
    put(TRACE_FILE, " ");
    set_end(TRACE_FILE, spell(end_of(TRACE_FILE), number, 10));
}

void put_address(ULong address) {
    put(TRACE_FILE, " 0x");
    set_end(TRACE_FILE, spell(end_of(TRACE_FILE), address, 16));
}

void put_bytes(const UChar *bytes, SizeT length) {
    HChar *end = end_of(TRACE_FILE);
    SizeT at;
    *end++ = ' ';
    for (at = 0; at < length; at++) {
        *end++ = "0123456789abcdef"[bytes[at] >> 4];
        *end++ = "0123456789abcdef"[bytes[at] & 15];
    }
    set_end(TRACE_FILE, end);
}

void end_event(const HChar *label) {
    put(TRACE_FILE, "\n");
    if (label != NULL && has_labels())
        put_label(label);
    keep_progress();
    if (common->trace.now.waiting[TRACE_FILE] > TEXT_BYTES_WAITING - LONGEST_LINE ||
        common->trace.now.waiting[LABEL_FILE] > TEXT_BYTES_WAITING - LONGEST_LINE)
        write_trace();
}
