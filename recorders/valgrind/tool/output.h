/* The trace: events by their words, and the labels beside it. */
#ifndef OUTPUT_H
#define OUTPUT_H

#include "core.h"

enum { MOST_EVENTS = 1000000, MOST_THREADS = 256, LINE_BYTES = 64, WORD_BYTES = 8, TEXT_BYTES_WAITING = 1 << 16 };

/* Which part of the run is recorded, and why not the rest. */
typedef enum { BEFORE_WINDOW, RECORDING, AFTER_WINDOW, ENDED, OFF } Recording;

extern Recording recording;

/* How many events of this process are not in the trace: before and after the window, and after its end. */
typedef struct {
    ULong before, after, missing;
} EventCounts;

extern EventCounts event_counts;

/* The two files that are written. */
typedef enum { TRACE_FILE, LABEL_FILE, FILE_COUNT } WrittenFile;

/* How far the trace is: its events, and of each file how many bytes are in it and how many wait behind these. */
typedef struct {
    ULong events;
    ULong written[FILE_COUNT];
    Int waiting[FILE_COUNT];
} Progress;

/* The trace as its processes have it in common. `now` may stand within an event; of `kept` the one that counts stands behind a whole
 * one, and what waits then is a beginning of what waits now. */
typedef struct {
    Progress now, kept[2];
    UInt counts;
    Bool ended, labels_ended;
    HChar text[FILE_COUNT][TEXT_BYTES_WAITING];
} TraceText;

/* Takes the file of a trace for this run, and leaves what stands there. Ends the run where it can't, or where another run has it. */
void take_trace(const HChar *path);

/* All is written: another run may have it, though copies of this process live on. */
void release_trace(void);

/* Begins the trace, which was taken or is now, and its labels where they are asked for; what stood there is lost. Ends the run where it
 * can't. */
void open_trace(const HChar *path);

/* Goes on with the trace that another process has created. */
void open_common_trace(const HChar *path);

/* Told where this process has the turn: the trace goes on behind its last whole event. */
void catch_up(void);

ULong event_count(void);

/* Begins the trace anew: what it had is forgotten. */
void restart_trace(void);

/* Whether an event can be written now; if not, it is counted as missing. Then its fields are put, and its end with its label,
 * which may be NULL. */
Bool begin_event(const HChar *word, ThreadId thread);
Bool begin_event_by(const HChar *word, Int number);
void put_address(ULong address);
void put_number(ULong number);
void put_bytes(const UChar *bytes, SizeT length);
void end_event(const HChar *label);

/* So many events can't be written now: they are counted. */
void count_missing(SizeT count);

/* How many words [from, end) has, or has parts of: a store to it is as many events. */
static inline SizeT words_in(ULong from, ULong end) {
    return from < end ? (end - 1) / WORD_BYTES - from / WORD_BYTES + 1 : 0;
}

/* Ends the trace for good, with a line on standard error. */
void end_trace(const HChar *why);

/* Writes what waits in memory: the events alone, or their labels too. */
void write_events(void);
void write_trace(void);

/* Nothing is recorded any more, and what waits is forgotten: the process is another's copy. */
void leave_trace(void);

/* The trace's name, and the same from the root on. */
const HChar *trace_path(void);
const HChar *trace_place(void);

#endif
