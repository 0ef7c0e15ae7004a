/* Does the operations of a thread by the recorder, and logs for each when it began and ended and what it answered. */
#define _GNU_SOURCE 1
#define PMTRACE_LABELS
#include "pmtrace.h"

#include "atomics.h"
#include "program.h"

#include <sched.h>
#include <signal.h>
#include <stdio.h>
#include <stdlib.h>
#include <sys/wait.h>
#include <unistd.h>

typedef uint16_t __attribute__((aligned(1), may_alias)) word2;
typedef uint32_t __attribute__((aligned(1), may_alias)) word4;
typedef uint64_t __attribute__((aligned(1), may_alias)) word8;
typedef struct bytes3 {
    unsigned char byte[3];
} bytes3;
typedef struct bytes24 {
    unsigned char byte[24];
} bytes24;
typedef struct bytes100 {
    unsigned char byte[100];
} bytes100;

const unsigned char *data;

static uint64_t tickets;

static uint64_t ticket(void) {
    return __atomic_add_fetch(&tickets, 1, __ATOMIC_RELAXED);
}

static unsigned char *place_of(const thread *one, uint64_t number, uint64_t at) {
    return number < one->program->pool_count ? one->program->pools[number].start + at : NULL;
}

/* --- stores --- */

static void store(unsigned char *to, uint64_t size, const unsigned char *from) {
    switch (size) {
    case 1:
        pmtrace_store(*to, *from);
        break;
    case 2:
        pmtrace_store(*(word2 *)(void *)to, *(const word2 *)(const void *)from);
        break;
    case 3:
        pmtrace_store(*(bytes3 *)(void *)to, *(const bytes3 *)(const void *)from);
        break;
    case 4:
        pmtrace_store(*(word4 *)(void *)to, *(const word4 *)(const void *)from);
        break;
    case 8:
        pmtrace_store(*(word8 *)(void *)to, *(const word8 *)(const void *)from);
        break;
    case 24:
        pmtrace_store(*(bytes24 *)(void *)to, *(const bytes24 *)(const void *)from);
        break;
    default:
        pmtrace_store(*(bytes100 *)(void *)to, *(const bytes100 *)(const void *)from);
        break;
    }
}

/* A store that the recorder is not told of, by one instruction. */
static void store_plainly(unsigned char *to, uint64_t size, uint64_t value) {
    switch (size) {
    case 1:
        *(volatile unsigned char *)to = (unsigned char)value;
        break;
    case 2:
        *(volatile word2 *)(void *)to = (uint16_t)value;
        break;
    case 4:
        *(volatile word4 *)(void *)to = (uint32_t)value;
        break;
    default:
        *(volatile word8 *)(void *)to = value;
        break;
    }
}

/* --- groups of operations; each says whether the operation is of its group --- */

static bool perform_store(const thread *one, const operation *what, record *log) {
    const uint64_t *numbers = what->numbers;
    unsigned char *place = place_of(one, numbers[0], numbers[1]);
    uint64_t length = numbers[2];
    if (what->word == STORE)
        store(place, length, data + numbers[3]);
    else if (what->word == COPY)
        log->answer = pmtrace_memcpy(place, data + numbers[3], length) != place;
    else if (what->word == MOVE)
        log->answer = pmtrace_memmove(place, data + numbers[3], length) != place;
    else if (what->word == WITHIN)
        log->answer = pmtrace_memmove(place, place_of(one, numbers[3], numbers[4]), length) != place;
    else if (what->word == FILL)
        log->answer = pmtrace_memset(place, (int)numbers[3], length) != place;
    else if (what->word == STREAM)
        log->answer = pmtrace_memcpy_nontemporal(place, data + numbers[3], length) != place;
    else if (what->word == EXCHANGE || what->word == COMPARE)
        exchange(what, place, log);
    else if (what->word >= ADD && what->word <= XOR)
        fetch(what, place, log);
    else if (what->word == PLAIN)
        store_plainly(place, length, value_at(data + numbers[3], length));
    else if (what->word == RELAXED)
        __atomic_store_n((uint64_t *)(void *)place, value_at(data + numbers[3], length), __ATOMIC_RELAXED);
    else if (what->word == READ)
        log->seen[0] = value_at(place, length);
    else
        return false;
    return true;
}

static bool perform_flush(const thread *one, const operation *what) {
    const uint64_t *numbers = what->numbers;
    const unsigned char *place = place_of(one, numbers[0], numbers[1]);
    if (what->word == CLWB)
        pmtrace_clwb(place, numbers[2]);
    else if (what->word == CLFLUSHOPT)
        pmtrace_clflushopt(place, numbers[2]);
    else if (what->word == CLFLUSH)
        pmtrace_clflush(place, numbers[2]);
    else if (what->word == SFENCE)
        pmtrace_sfence();
    else if (what->word == MFENCE)
        pmtrace_mfence();
    else if (what->word == PERSIST)
        pmtrace_persist(place, numbers[2]);
    else if (what->word == IS_PERSIST)
        pmtrace_is_persist(place, numbers[2]);
    else if (what->word == IS_ORDERED)
        pmtrace_is_ordered_before(place, numbers[2], place_of(one, numbers[3], numbers[4]), numbers[5]);
    else
        return false;
    return true;
}

static bool perform_opening(const thread *one, const operation *what, record *log) {
    const program *whole = one->program;
    pool *opened = &one->program->pools[what->numbers[0] % MOST_POOLS];
    if (what->word == OPEN)
        log->answer = (uint64_t)(int64_t)pmtrace_open(whole->trace, opened->start, opened->length, whole->line_size);
    else if (what->word == CLOSE)
        log->answer = (uint64_t)(int64_t)pmtrace_close();
    else if (what->word == WATCH)
        log->answer = (uint64_t)(int64_t)pmtrace_watch();
    else if (what->word == STOP)
        log->answer = (uint64_t)(int64_t)pmtrace_stop();
    else if (what->word == START)
        log->answer = (uint64_t)(int64_t)pmtrace_start();
    else if (what->word == FORGET)
        log->answer = (uint64_t)(int64_t)pmtrace_forget(opened->start, opened->length);
    else if (what->word == REMAP)
        map_pool(opened);
    else
        return false;
    return true;
}

static void pause_for(uint64_t rounds) {
    for (volatile uint64_t at = 0; at < rounds; at = at + 1)
        continue;
}

static void wait_at_gate(program *whole) {
    while (!__atomic_load_n(&whole->open_gate, __ATOMIC_ACQUIRE))
        sched_yield();
}

static void spawn(thread *other, record *log) {
    log->answer = (uint64_t)pthread_create(&other->handle, NULL, run_thread, other);
}

static void join(thread *other, record *log) {
    void *answer = NULL;
    log->answer = (uint64_t)pthread_join(other->handle, &answer);
    log->seen[0] = answer == PTHREAD_CANCELED;
}

static bool perform_threads(thread *one, const operation *what, record *log) {
    thread *threads = one->program->threads;
    if (what->word == SPAWN)
        spawn(&threads[what->numbers[0]], log);
    else if (what->word == JOIN)
        join(&threads[what->numbers[0]], log);
    else if (what->word == CANCEL)
        log->answer = (uint64_t)pthread_cancel(threads[what->numbers[0]].handle);
    else if (what->word == TEST_CANCEL)
        pthread_testcancel();
    else if (what->word == THREAD_EXIT)
        pthread_exit(NULL);
    else if (what->word == YIELD)
        sched_yield();
    else if (what->word == PAUSE)
        pause_for(what->numbers[0]);
    else if (what->word == WAIT)
        wait_at_gate(one->program);
    else if (what->word == GO)
        __atomic_store_n(&one->program->open_gate, 1, __ATOMIC_RELEASE);
    else
        return false;
    return true;
}

static void perform_ending(const operation *what) {
    int number = (int)what->numbers[0];
    if (what->word == EXIT)
        exit(number);
    else if (what->word == QUICK_EXIT)
        quick_exit(number);
    else if (what->word == EXIT_NOW)
        _exit(number);
    else if (what->word == ABORT)
        abort();
    else if (what->word == SIGNAL)
        kill(getpid(), number);
    else if (what->word == FAULT)
        *(volatile unsigned char *)(uintptr_t)what->numbers[0] = 1;
}

static void perform(thread *one, size_t at) {
    const operation *what = &one->operations[at];
    record *log = &one->records[at];
    __atomic_store_n(&log->begun, ticket(), __ATOMIC_RELAXED);
    __asm__ volatile("" ::: "memory");
    if (!perform_store(one, what, log) && !perform_flush(one, what) && !perform_opening(one, what, log) &&
        !perform_threads(one, what, log))
        perform_ending(what);
    __asm__ volatile("" ::: "memory");
    __atomic_store_n(&log->ended, ticket(), __ATOMIC_RELAXED);
}

/* A child does the next operations and ends, in one of four ways, while the parent waits for it. Answers the last of them. */
static size_t perform_fork(thread *one, size_t at) {
    const operation *what = &one->operations[at];
    size_t last = at + what->numbers[0];
    one->records[at].begun = ticket();
    pid_t child = fork();
    if (child != 0) {
        one->records[at].answer = child < 0 || waitpid(child, NULL, 0) != child;
        one->records[at].ended = ticket();
        return last;
    }
    while (at < last)
        perform(one, ++at);
    if (what->numbers[1] == 0)
        _exit(0);
    if (what->numbers[1] == 1)
        exit(0);
    kill(getpid(), what->numbers[1] == 2 ? SIGKILL : SIGABRT);
    return last;
}

void *run_thread(void *place) {
    thread *one = (thread *)place;
    for (size_t at = 0; at < one->count; at++) {
        if (one->operations[at].word == FORK)
            at = perform_fork(one, at);
        else
            perform(one, at);
    }
    return NULL;
}
