/* What the processes of one trace have in common: how far the trace is, the numbers of threads, the pools. It lies in the file FILE.shared
 * beside the trace, which each process maps, and where there is one process in its own memory. The process that has the turn reads and
 * writes it (processes.h), and may die at any instruction: each module says what the next one finds then. */
#ifndef COMMON_H
#define COMMON_H

#include "bases.h"
#include "core.h"
#include "meetings.h"
#include "output.h"
#include "pools.h"
#include "threads.h"

enum { MOST_PROCESSES = 1024 };

/* A process has the kernel's lock on the byte of this number in the file, as long as it lives. */
typedef struct {
    Bool used, has_numbered;
    Bool here;           /* it has the turn, or waits for it */
    Bool slow;           /* it was waited for too long */
    Int process, thread; /* the kernel's numbers, of the thread that had the turn last */
} Process;

typedef struct {
    UInt turn;         /* the kernel's number of the thread that has the turn, and the kernel's marks */
    Int first_process; /* the kernel's number of the process in which the program began */
    UInt living;       /* how many have a place; one that was killed keeps it until it is looked for */
    Int places;        /* how many there were at most, of which some may be free again */
    UInt begun, come;  /* how many children were begun, and how many of these have come so far */
    UInt numbered;     /* how many have a thread in the trace */
    UInt killed;       /* how many died while they had the turn */
    Bool over;         /* the first process has ended, or was killed and all the others have ended */
    Process processes[MOST_PROCESSES];
    TraceText trace;
    Numbers numbers;
    Pools pools;
    Bases bases;
    Meetings meetings;
} Common;

extern Common *common;

/* Makes the file, or maps the one that another process has made. Ends the run where that fails; false where there is none. */
void make_common(const HChar *trace);
Bool find_common(const HChar *trace, Int first_process);

/* No process comes any more: the file goes. Those that have it mapped keep it. */
void remove_common(void);

/* A lock of the kernel on the byte of a process, which ends with the process that has it; and whether some other process has it. */
void lock_byte(Int process, Bool locked);
Bool is_byte_locked(Int process);

/* A page of the file for a part of a pool; NULL where nobody has made it yet and it is not to be made, or can't be. */
void *common_page(Int pool, SizeT number, Bool made);

/* How many parts of a pool may have one. */
SizeT common_pages(Int pool);

enum { COMMON_PAGE = 4096 };

#endif
