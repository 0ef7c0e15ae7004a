/* What the words of the command line ask for. */
#ifndef OPTIONS_H
#define OPTIONS_H

#include "core.h"

enum { MOST_NAMES = 64, MOST_FUNCTIONS = 64, MOST_CALLERS = 12, BY_SEED = -1 };

/* A name by which files are pools: a file's own, or how names begin. PREFIX_OR_FILE is a prefix too, of which the last lines say what
 * it took, since a file's own name may have been meant. */
typedef enum { VERY_FILE, PREFIX, PREFIX_OR_FILE } NameKind;

typedef struct {
    const HChar *text;
    NameKind kind;
    Bool written; /* the file is a pool from its opening on, and need not be mapped */
} PoolName;

/* A function whose returns claim that a range is saved: the numbers of its arguments that are address and length, from 1. */
typedef struct {
    const HChar *name;
    Int address, length;
} PersistFunction;

typedef struct {
    PoolName names[MOST_NAMES]; /* none: each file that is mapped shared and may be written is a pool */
    Int name_count;
    Bool written; /* some name is of files that need not be mapped */
    const HChar *trace;
    const HChar *parent_trace; /* set by the recorder of a parent, for a child that it has begun */
    Bool labels;
    Bool base; /* the pools' first bytes are kept beside the trace */
    Int callers; /* how many callers a label names at most */
    Bool locked_fences;
    Bool pmdk;
    Bool children;
    Bool process;      /* what program a process is and how it ends is written beside its trace */
    Bool one_trace;    /* all processes write one trace */
    Bool whole;        /* the trace may have more events and labels than pmtrim reads at once */
    Int first_process; /* set with parent_trace: the number of the process in which the program began */
    Int switch_every; /* a turn ends at one in so many places where it may; 0: never */
    Int seed;
    const HChar *counts; /* a file for what --seeds tells of a run */
    Bool part_each;    /* a test: the code is left before each access, once */
    const HChar *start_after, *stop_at;
    Int first_event, last_event; /* the window, by numbers of events of the whole run; 0: none */
    PersistFunction persists[MOST_FUNCTIONS];
    Int persist_count;
} Options;

extern Options options;

Bool take_option(const HChar *word);

/* Refuses options that don't go together. */
void check_options(void);
void print_options(void);

/* Ends the run before the program begins, with a line on standard error. */
void refuse(const HChar *what, const HChar *name) __attribute__((noreturn));

#endif
