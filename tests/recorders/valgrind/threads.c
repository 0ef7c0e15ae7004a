/* Threads of several kinds: threads KIND POOL THREADS TIMES. Each saves words of its own lines, by clflush where KIND is `barrier`.
 *
 *     log      a log under a lock. A record is not saved where another thread has appended since this one did: how often is written
 *     locked   each save is under one lock          spun      the same, of the kind that spins
 *     free     there is no lock                     calls     each save is between two calls of the system, and under one lock
 *     barrier  all of them wait for each other, and save once
 *     piped    threads in pairs, one of which waits for each byte of the other, and comes late, as it has a processor when no other wants
 *              it; the first two have no pair
 *     synced   stores to TIMES lines, and asks the system to save them all
 *     hot      flushes two lines in turn without a fence, then stores to one word; nothing becomes safe
 *     short    one after another; the last one forgets its fence
 *     window   like short, then the window opens, and one thread more saves */
#define _GNU_SOURCE
#include "pmtrim_record.h"
#include <fcntl.h>
#include <immintrin.h>
#include <pthread.h>
#include <sched.h>
#include <stdint.h>
#include <stdio.h>
#include <stdlib.h>
#include <string.h>
#include <sys/mman.h>
#include <unistd.h>

enum { LINES = 64, LINE_WORDS = 8, MOST_THREADS = 512 };

static const char *kind;
static long *pool;
static long times, last, missed;
static int null, pipes[MOST_THREADS][2];
static pthread_mutex_t lock = PTHREAD_MUTEX_INITIALIZER;
static pthread_spinlock_t spun;
static pthread_barrier_t barrier;

static int is(const char *name) {
    return strcmp(kind, name) == 0;
}

static void save(long *word, long value) {
    *word = value;
    if (is("barrier"))
        _mm_clflush(word);
    else
        _mm_clwb(word);
    if (!is("short") || value != last)
        _mm_sfence();
}

/* Appends a record, and says where: the log's length is in the first line. */
static long append(long before) {
    pthread_mutex_lock(&lock);
    long at = pool[0], *record = &pool[LINE_WORDS * (1 + at)];
    if (before >= 0 && before != at - 1) {
        *record = at + 1;
        missed++;
    } else
        save(record, at + 1);
    save(&pool[0], at + 1);
    PMTRIM_IS_ORDERED_BEFORE(record, sizeof *record, &pool[0], sizeof pool[0]);
    pthread_mutex_unlock(&lock);
    return at;
}

static void call_system(void) {
    if (is("calls") && write(null, "", 1) != 1)
        abort();
}

static void save_under_lock(long *word, long value) {
    call_system();
    if (is("locked") || is("calls"))
        pthread_mutex_lock(&lock);
    else if (is("spun"))
        pthread_spin_lock(&spun);
    save(word, value);
    if (is("locked") || is("calls"))
        pthread_mutex_unlock(&lock);
    else if (is("spun"))
        pthread_spin_unlock(&spun);
    call_system();
}

static void do_byte(long number) {
    char byte = 0;
    if (number % 2 == 0 ? write(pipes[number / 2][1], &byte, 1) != 1 : read(pipes[number / 2][0], &byte, 1) != 1)
        abort();
}

static void come_late(void) {
    const struct sched_param none = {0};
    if (sched_setscheduler(0, SCHED_IDLE, &none) != 0)
        abort();
}

static void leave_unsafe(volatile long *words) {
    for (long at = 0; at < times; at++)
        _mm_clwb((void *)&words[LINE_WORDS * (at % 2)]);
    for (long at = 0; at < times; at++)
        words[0] = at;
}

static void synchronize(char *start) {
    for (long at = 0; at < times; at++)
        start[64 * at] = 1;
    if (msync(start, 64 * (size_t)times, MS_SYNC) != 0)
        abort();
}

static void *run(void *given) {
    long number = (long)(intptr_t)given, at, before = -1;
    if (is("barrier"))
        pthread_barrier_wait(&barrier);
    if (is("piped") && number > 1 && number % 2 == 1)
        come_late();
    if (is("hot"))
        leave_unsafe(pool);
    else if (is("synced"))
        synchronize((char *)pool);
    for (at = 0; at < times && !is("hot") && !is("synced"); at++) {
        if (is("piped") && number > 1)
            do_byte(number);
        if (is("log"))
            before = append(before);
        else
            save_under_lock(&pool[LINE_WORDS * (number % MOST_THREADS * LINES + at % LINES)], number + at + 1);
    }
    return NULL;
}

static void run_in_turn(long from, long end) {
    for (long number = from; number < end; number++) {
        pthread_t thread;
        pthread_create(&thread, NULL, run, (void *)(intptr_t)number);
        pthread_join(thread, NULL);
    }
}

static void run_together(long count) {
    pthread_t threads[MOST_THREADS];
    long at;
    pthread_barrier_init(&barrier, NULL, (unsigned)count);
    pthread_spin_init(&spun, PTHREAD_PROCESS_PRIVATE);
    for (at = 0; at < count; at++)
        if ((is("piped") && pipe(pipes[at]) != 0) || pthread_create(&threads[at], NULL, run, (void *)(intptr_t)at) != 0)
            abort();
    for (at = 0; at < count; at++)
        pthread_join(threads[at], NULL);
}

int main(int given, char **words) {
    const size_t bytes = sizeof(long) * LINE_WORDS * (MOST_THREADS * LINES + 1);
    if (given < 5)
        return 2;
    int file = open(words[2], O_RDWR | O_CREAT | O_TRUNC, 0666);
    long count = atol(words[3]);
    if (file < 0 || ftruncate(file, (off_t)bytes) != 0)
        return 2;
    kind = words[1];
    null = open("/dev/null", O_WRONLY);
    times = atol(words[4]);
    last = count;
    pool = mmap(NULL, bytes, PROT_READ | PROT_WRITE, MAP_SHARED, file, 0);
    if (is("short") || is("window"))
        run_in_turn(0, count);
    else
        run_together(count);
    if (is("window")) {
        PMTRIM_START();
        run_in_turn(count, count + 1);
    }
    printf("%ld\n", missed);
    return 0;
}
