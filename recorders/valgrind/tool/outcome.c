#include "outcome.h"
#include "options.h"
#include "pools.h"

/* The first line, which is as long whatever it says: a word, a number, and whether a pool was mapped. */
enum { HOW_BYTES = 32 };

static HChar *outcome_file;
static Bool exits;
static UInt exit_status;

static void write_how(const HChar *word, UInt number) {
    HChar line[HOW_BYTES + 1];
    SizeT length;
    if (outcome_file == NULL)
        return;
    SysRes opened = VG_(open)(outcome_file, VKI_O_CREAT | VKI_O_WRONLY, 0666);
    if (sr_isError(opened)) {
        VG_(printf)("pmtrim-record: %s can't be written\n", outcome_file);
        return;
    }
    length = VG_(snprintf)(line, sizeof line, "%s %u pools %d", word, number, had_pools() ? 1 : 0);
    VG_(memset)(line + length, ' ', HOW_BYTES - length);
    line[HOW_BYTES - 1] = '\n';
    VG_(write)((Int)sr_Res(opened), line, HOW_BYTES);
    VG_(close)((Int)sr_Res(opened));
}

/* The words of the command line, each with a zero byte behind it, behind the first line. */
static void write_words(void) {
    SysRes opened = VG_(open)(outcome_file, VKI_O_WRONLY | VKI_O_APPEND, 0666);
    Word at;
    if (sr_isError(opened))
        return;
    VG_(write)((Int)sr_Res(opened), VG_(args_the_exename), (Int)VG_(strlen)(VG_(args_the_exename)) + 1);
    for (at = 0; at < VG_(sizeXA)(VG_(args_for_client)); at++) {
        const HChar *word = *(HChar **)VG_(indexXA)(VG_(args_for_client), at);
        VG_(write)((Int)sr_Res(opened), word, (Int)VG_(strlen)(word) + 1);
    }
    VG_(close)((Int)sr_Res(opened));
}

void begin_outcome(const HChar *trace) {
    if (!options.process)
        return;
    outcome_file = VG_(realloc)("outcome.path", outcome_file, VG_(strlen)(trace) + sizeof ".process");
    VG_(sprintf)(outcome_file, "%s.process", trace);
    VG_(unlink)(outcome_file);
    exits = False;
    write_how("running", 0);
    write_words();
}

void leave_outcome(void) {
    if (outcome_file != NULL)
        VG_(free)(outcome_file);
    outcome_file = NULL;
}

void note_exit(UInt status) {
    exits = True;
    exit_status = status & 0xff;
}

void write_outcome(void) {
    write_how(exits ? "status" : "signal", exit_status);
}

void write_becoming(void) {
    write_how("became", 0);
}
