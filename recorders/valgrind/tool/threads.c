#include "threads.h"
#include "common.h"
#include "lock.h"
#include "meetings.h"
#include "options.h"
#include "output.h"
#include "parting.h"
#include "pending.h"
#include "processes.h"
#include "turns.h"
#include "unfenced.h"

typedef struct {
    Int number; /* from 1; 0: it has none */
    UInt serial;
    OpenFlush open_flush;
} Thread;

static Thread *threads;
static UInt last_serial;
static Int ended = -1;

void begin_threads(void) {
    threads = VG_(calloc)("threads", VG_N_THREADS, sizeof *threads);
    begin_turns();
    begin_unfenced();
}

static Number *number_at(Int number) {
    return &common->numbers.all[number];
}

static Int lowest_free(void) {
    Int number = 0;
    while (number < MOST_THREADS && number_at(number)->given)
        number++;
    return number < MOST_THREADS ? number : -1;
}

/* A number for a thread that has a flush open, or none. */
static Int free_number(Bool flushed) {
    Int number = lowest_free();
    if (number < 0 && find_ended_processes())
        number = lowest_free();
    if (number < 0)
        return -1;
    *number_at(number) = (Number){.flushed = flushed, .process = (UShort)own_process(), .serial = ++common->numbers.last_serial};
    number_at(number)->given = True;
    common->numbers.given++;
    process_has_number();
    return number;
}

Int thread_number(ThreadId thread) {
    if (threads[thread].number == 0)
        threads[thread].number = free_number(threads[thread].open_flush != NO_FLUSH) + 1;
    return threads[thread].number - 1;
}

void note_acting(Int number) {
    Numbers *numbers = &common->numbers;
    Number *acting = number_at(number), *last = number_at(numbers->acting);
    if (numbers->acting_serial != 0 && acting->serial != numbers->acting_serial) {
        numbers->switches.all++;
        if (acting->acted && last->serial == numbers->acting_serial)
            numbers->switches.back++;
    }
    acting->acted = True;
    numbers->acting = number;
    numbers->acting_serial = acting->serial;
}

Switches switches(void) {
    return common->numbers.switches;
}

Int number_of_ended(void) {
    if (ended < 0)
        ended = free_number(False);
    return ended;
}

ULong thread_count(void) {
    return common->numbers.given;
}

UInt thread_serial(ThreadId thread) {
    return threads[thread].serial;
}

ThreadId thread_of_serial(UInt serial) {
    ThreadId thread;
    for (thread = 1; thread < VG_N_THREADS; thread++)
        if (threads[thread].serial == serial && VG_(is_valid_tid)(thread))
            return thread;
    return VG_INVALID_THREADID;
}

OpenFlush open_flush(ThreadId thread) {
    return threads[thread].open_flush;
}

void set_open_flush(ThreadId thread, OpenFlush open) {
    threads[thread].open_flush = open;
    if (threads[thread].number > 0)
        number_at(threads[thread].number - 1)->flushed = open != NO_FLUSH;
}

void thread_created(ThreadId parent, ThreadId child) {
    threads[child] = (Thread){.serial = ++last_serial};
    if (parent == VG_INVALID_THREADID)
        return;
    part_from_now_on();
    lock_expects_thread();
}

/* The thread of a number has ended. */
static void end_number(Number *number) {
    number->serial = 0;
    if (!number->flushed)
        number->given = False;
}

void thread_ends(ThreadId thread) {
    Int number = threads[thread].number - 1;
    leave_unfenced(thread, number);
    if (number >= 0)
        end_number(number_at(number));
    threads[thread] = (Thread){0};
    if (VG_(get_running_tid)() == thread)
        lock_loses_thread();
    else
        lock_misses_thread();
}

void end_threads_of(Int process) {
    Int number;
    for (number = 0; number < MOST_THREADS; number++)
        if (number_at(number)->given && number_at(number)->serial != 0 && number_at(number)->process == process)
            end_number(number_at(number));
}

void forget_numbers(void) {
    ThreadId thread;
    for (thread = 0; thread < VG_N_THREADS; thread++)
        threads[thread].number = 0;
    common->numbers = (Numbers){0};
    ended = -1;
}

void only_thread(ThreadId thread) {
    ThreadId any;
    VG_(memset)(threads, 0, VG_N_THREADS * sizeof *threads);
    if (options.one_trace)
        return;
    for (any = 0; any < VG_N_THREADS; any++)
        leave_unfenced(any, -1);
    forget_numbers();
    forget_meetings();
}
