#include "cut.h"

enum { MOST_BYTES = 4096 };

static const HChar *trace_file;
static HChar *cut_file;

void name_cut(const HChar *trace) {
    trace_file = trace;
    cut_file = VG_(realloc)("cut.path", cut_file, VG_(strlen)(trace_file) + sizeof ".cut");
    VG_(sprintf)(cut_file, "%s.cut", trace_file);
}

void end_cut(void) {
    VG_(unlink)(cut_file);
}

static void cut_fails(const HChar *why) {
    VG_(printf)("pmtrim-record: %s can't be written: %s\n", cut_file, why);
}

/* The line, or why it can't be written. */
static const HChar *write_line(ULong events, const HChar *why) {
    HChar line[MOST_BYTES];
    const HChar *fault = NULL;
    Int length, done;
    SysRes opened = VG_(open)(cut_file, VKI_O_CREAT | VKI_O_TRUNC | VKI_O_WRONLY, 0666);
    if (sr_isError(opened))
        return VG_(strerror)(sr_Err(opened));
    length = (Int)VG_(snprintf)(line, sizeof line, "%llu %s\n", events, why);
    done = VG_(write)((Int)sr_Res(opened), line, length);
    if (done < 0)
        fault = VG_(strerror)((UWord)-done);
    else if (done < length) {
        VG_(do_syscall)(__NR_ftruncate, sr_Res(opened), 0, 0, 0, 0, 0, 0, 0);
        fault = "there is no room for it";
    }
    VG_(close)((Int)sr_Res(opened));
    return fault;
}

static Bool is_in_folder(void) {
    struct vg_stat status;
    return !sr_isError(VG_(stat)(trace_file, &status)) && VKI_S_ISREG(status.mode);
}

void begin_cut(const HChar *trace) {
    name_cut(trace);
    if (is_in_folder())
        write_line(0, "the run was killed, or is not over: later events are missing, and what else is was not counted");
}

void write_cut(ULong events, const HChar *why) {
    const HChar *fault = is_in_folder() ? write_line(events, why) : NULL;
    if (fault != NULL)
        cut_fails(fault);
}
