#include <errno.h>
#include <fcntl.h>
#include <pthread.h>
#include <signal.h>
#include <stdarg.h>
#include <stdio.h>
#include <stdlib.h>
#include <sys/file.h>
#include <sys/ioctl.h>
#include <sys/mman.h>
#include <sys/stat.h>
#include <sys/syscall.h>
#include <time.h>
#include <unistd.h>

#ifndef SA_RESETHAND
#error "pmtrace.h: with PMTRACE_IMPLEMENTATION and -std=c11 let this be the first include of the file, or compile with -std=gnu11"
#endif

#ifdef __cplusplus
#define PMTRACE_OF_THREAD_ thread_local
#else
#define PMTRACE_OF_THREAD_ _Thread_local
#endif

enum {
    PMTRACE_MOST_EVENTS_ = 1000000,
    PMTRACE_MOST_THREADS_ = 256,
    PMTRACE_MOST_ASSERTED_ = 4096, /* bytes of a range of an assertion */
    PMTRACE_WORD_BYTES_ = 8,
    PMTRACE_MOST_LABEL_ = 400,  /* of a longer label the end is written */
    PMTRACE_LONGEST_LINE_ = 64, /* at least the bytes of an event's line */
    PMTRACE_SECONDS_ = 10       /* how long a call of another thread is waited for */
};

/* What the calls find: no trace; a trace; a trace of the process that this one was forked from; a trace that ended at exit. */
enum { PMTRACE_CLOSED_, PMTRACE_OPEN_, PMTRACE_FORKED_, PMTRACE_OVER_ };

/* Lines on their way to a file. A mapped file has `most` bytes of room in all, and `size` of them so far; of another file the room is
 * a buffer. The last byte of a line is put last, so what follows the last LF is no line. */
typedef struct pmtrace_output_ {
    int file;
    bool mapped;
    char *room;
    size_t used;  /* bytes that are put */
    size_t whole; /* those of them that are whole lines */
    size_t size;
    size_t most;
} pmtrace_output_;

/* A range of a pool: its address in the trace, its length, and where it is mapped. */
typedef struct pmtrace_range_ {
    uint64_t from;
    uint64_t length;
    uintptr_t at;
} pmtrace_range_;

/* What the kernel says of an address: the mapping that has it, and where the mapping shares a file, which one and the place in it. */
typedef struct pmtrace_file_ {
    bool shared;
    unsigned long device[2];
    unsigned long number;
    uint64_t offset;
    uintptr_t start, end; /* of the mapping; both 0 where there is none */
} pmtrace_file_;

/* A pool: its addresses in the trace, and the file that it is, at its first address. */
typedef struct pmtrace_pool_ {
    uint64_t from;
    uint64_t end; /* of the addresses that were mapped so far */
    pmtrace_file_ file;
    unsigned char *copy; /* of a watched pool: what the trace makes of it */
    void *kept;          /* a page of the file that stays mapped, or NULL */
    int kept_file;       /* a descriptor of the file, by its path alone, or -1 */
} pmtrace_pool_;

/* A mapping of a part of a pool. */
typedef struct pmtrace_mapping_ {
    pmtrace_range_ range;
    unsigned pool;
    bool shared;  /* other processes may have it */
    bool tracked; /* the kernel tells which pages change */
} pmtrace_mapping_;

/* What a thread did that its number stands for. */
typedef struct pmtrace_thread_ {
    bool given;
    bool flush_open; /* a flush was noted, and no fence since */
    uint64_t fences; /* how many there were, in the window and outside */
} pmtrace_thread_;

/* A line that was stored to or flushed while the window was closed. */
typedef struct pmtrace_line_ {
    uint64_t address;
    uint64_t fences;        /* of the flusher, when it flushed */
    unsigned short flusher; /* the thread's number and 1; or 0: not flushed since it was stored to */
    bool used;
} pmtrace_line_;

static pthread_mutex_t pmtrace_lock_ = PTHREAD_MUTEX_INITIALIZER;

/* What the lock guards. */
static struct {
    bool ended;   /* before the trace was closed: nothing more is noted */
    bool labeled; /* there is a labels file */
    bool watching;
    bool look_at_all;
    bool window;   /* what is noted is written */
    bool stored;   /* a store is in the trace */
    bool prepared; /* what happens once did */
    char *name;
    char *asked;    /* the name that the program gave: another one where the environment names a folder */
    char *cut_name; /* of the file that says where the trace was cut, from the root on */
    unsigned line_size;
    unsigned opened;    /* how often a trace was opened */
    uint64_t calls;     /* that took the lock */
    uint64_t events;    /* in the trace */
    uint64_t most_events;
    uint64_t seen;      /* events in the trace and outside of the window */
    uint64_t start_at;  /* the window opens when so many were seen */
    uint64_t stop_at;   /* it closes then */
    uint64_t closed_at; /* so many were seen when it closed last */
    uint64_t missing;   /* events that came after the trace's end */
    uint64_t outside;   /* calls that reached outside the pools */
    bool incomplete;    /* something else is not in the trace, which was told */
    const char *label;  /* of the call */
    int error;          /* errno as the call found it */
    int cancel;         /* whether the thread could be cancelled */
    int cancel_type;    /* and how */
    pmtrace_output_ trace;
    pmtrace_output_ labels;
    pmtrace_pool_ *pools;
    unsigned pool_count;
    pmtrace_range_ *based; /* what stands in the bases beside the trace */
    unsigned based_count;
    bool basing; /* bases are wanted */
    pmtrace_mapping_ *mappings;
    unsigned mapping_count;
    unsigned last_mapping; /* the one that was found last */
    pmtrace_thread_ threads[PMTRACE_MOST_THREADS_];
    pmtrace_line_ *lines; /* a table of what happened outside the window */
    size_t line_room;
    size_t line_count;
    char *ages; /* a table of lines, and which of their bytes were stored to last in this window */
    size_t age_room;
    size_t age_count;
    bool aging;             /* a window was closed: ages are followed */
    bool ages_known;        /* nothing is missing in the table */
    unsigned window_number; /* how often the window was opened and closed, from 1 */
    uint64_t aside;         /* claims of order that only the whole run can judge */
    int fault_file;         /* by which the kernel is told to follow the pages; or -1 */
    int pages_file;         /* by which it tells which changed */
} pmtrace_;

/* What is read and written without the lock. */
static int pmtrace_state_;          /* PMTRACE_CLOSED_ and so on */
static int pmtrace_broken_;         /* a call left without giving the lock back */
static int pmtrace_dying_;          /* a signal is about to end the program */
static uintptr_t pmtrace_owner_;    /* the thread that has the lock, or 0 */
static uint64_t pmtrace_lost_;      /* calls that came after a call never returned */
static int *pmtrace_here_;          /* 0 in a child, however it was made: memory that a child finds wiped */
static uint64_t *pmtrace_children_; /* calls of children that reached a shared pool: memory that they share */

/* The thread's number, and the trace in which it has it: how many had been opened by then. */
static PMTRACE_OF_THREAD_ unsigned pmtrace_number_, pmtrace_number_of_;
static PMTRACE_OF_THREAD_ int pmtrace_inside_; /* the thread has the lock, or is about to */
static pthread_key_t pmtrace_key_;             /* by which the end of a thread is seen */

static bool pmtrace_is_(const int *flag) {
    return __atomic_load_n(flag, __ATOMIC_SEQ_CST) != 0;
}

static int pmtrace_get_state_(void) {
    int state = __atomic_load_n(&pmtrace_state_, __ATOMIC_ACQUIRE);
    bool here = state != PMTRACE_OPEN_ || pmtrace_here_ == NULL || __atomic_load_n(pmtrace_here_, __ATOMIC_RELAXED) != 0;
    return here ? state : (int)PMTRACE_FORKED_;
}
