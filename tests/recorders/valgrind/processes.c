/* Processes that share a pool: processes KIND POOL PROCESSES TIMES. The pool has a log: how long it is, then how many children are there, a
 * lock, and its records, each in a line of its own, with the number of the process that appended it; and behind them a line for each process.
 * Children append when all are there.
 *
 *     forks     children append under the lock; every other one maps the pool once more
 *     execs     the same, by programs that the children become
 *     killed    the first child stores to its line without end, until the kernel kills it; the others and then the parent append
 *     die       one child after another saves its line and is killed
 *     outlives  the parent ends first; the child saves its line then
 *     crowd     two processes with TIMES threads each, all at one time, each with a flush that no fence follows
 *     window    the parent asks for a window */
#define _GNU_SOURCE
#include "pmtrim_record.h"
#include <fcntl.h>
#include <immintrin.h>
#include <pthread.h>
#include <signal.h>
#include <stdint.h>
#include <stdio.h>
#include <stdlib.h>
#include <string.h>
#include <sys/mman.h>
#include <sys/wait.h>
#include <time.h>
#include <unistd.h>

enum { LINE_WORDS = 8, MOST_RECORDS = 4096, MOST_PROCESSES = 1024, MOST_THREADS = 256 };

struct line {
    _Alignas(64) volatile long words[LINE_WORDS];
};

struct pool {
    struct line length, here;
    _Alignas(64) pthread_mutex_t lock;
    struct line records[MOST_RECORDS], lines[MOST_PROCESSES];
};

static const char *path;
static struct pool *pool;
static long times;
static int told[2];

static void save(volatile long *word, long value) {
    *word = value;
    _mm_clwb((void *)word);
    _mm_sfence();
}

static void map_pool(void) {
    int file = open(path, O_RDWR);
    pool = mmap(NULL, sizeof *pool, PROT_READ | PROT_WRITE, MAP_SHARED, file, 0);
    close(file);
    if (pool == MAP_FAILED)
        abort();
}

static void append(long number) {
    pthread_mutex_lock(&pool->lock);
    long at = pool->length.words[0];
    save(&pool->records[at].words[0], number);
    save(&pool->length.words[0], at + 1);
    PMTRIM_IS_ORDERED_BEFORE(&pool->records[at], sizeof(long), &pool->length, sizeof(long));
    pthread_mutex_unlock(&pool->lock);
}

static void append_all(long number, long children) {
    if (number > 0)
        __atomic_add_fetch(&pool->here.words[0], 1, __ATOMIC_SEQ_CST);
    while (pool->here.words[0] < children)
        usleep(1000);
    for (long at = 0; at < times; at++)
        append(number);
}

static int become(char **words, long number) {
    char text[32];
    snprintf(text, sizeof text, "%ld", number);
    execl(words[0], words[0], "appends", words[2], words[3], words[4], text, NULL);
    return 8;
}

/* The kernel kills the process, wherever it is then. */
static void set_killer(void) {
    struct sigevent how = {.sigev_notify = SIGEV_SIGNAL, .sigev_signo = SIGKILL};
    struct itimerspec when = {.it_value = {.tv_nsec = 50000000}};
    timer_t timer;
    if (timer_create(CLOCK_MONOTONIC, &how, &timer) != 0 || timer_settime(timer, 0, &when, NULL) != 0)
        abort();
}

/* It is killed when the others have appended. */
static void store_until_killed(volatile long *word, long others) {
    int set = 0;
    for (volatile long value = 1, wait;; value++) {
        *word = value;
        for (wait = 0; wait < 1000; wait++)
            continue;
        if (!set && pool->length.words[0] == others * times) {
            set_killer();
            set = 1;
        }
    }
}

/* What the child of this number does; its status. */
static int child(char **words, long number) {
    const char *kind = words[1];
    volatile long *own = &pool->lines[number].words[0];
    if (strcmp(kind, "execs") == 0)
        return become(words, number);
    if (strcmp(kind, "killed") == 0 && number == 1) {
        __atomic_add_fetch(&pool->here.words[0], 1, __ATOMIC_SEQ_CST);
        store_until_killed(own, atol(words[3]) - 1);
    }
    if (strcmp(kind, "die") == 0) {
        save(own, number);
        raise(SIGKILL);
    }
    if (number % 2 == 0)
        map_pool();
    append_all(number, atol(words[3]));
    return 0;
}

static pid_t begin(char **words, long number) {
    pid_t begun = fork();
    if (begun == 0)
        _exit(child(words, number));
    return begun;
}

static int wait_for(long count) {
    int worst = 0;
    for (long at = 0; at < count; at++) {
        int status;
        wait(&status);
        if (WIFEXITED(status) && WEXITSTATUS(status) > worst)
            worst = WEXITSTATUS(status);
    }
    return worst;
}

static void outlive(void) {
    char byte;
    pipe(told);
    if (fork() == 0) {
        close(told[1]);
        read(told[0], &byte, 1); /* the parent has ended */
        save(&pool->lines[1].words[0], 1);
        _exit(0);
    }
    save(&pool->lines[0].words[0], 1);
}

static pthread_barrier_t all_flushed, all_end;

static void *flush(void *given) {
    volatile long *word = (volatile long *)given;
    *word = 1;
    _mm_clwb((void *)word);
    pthread_barrier_wait(&all_flushed);
    pthread_barrier_wait(&all_end);
    return NULL;
}

/* Threads that all have a flush open, until `act` has been called. */
static void crowd(long number, void (*act)(long)) {
    pthread_t threads[MOST_THREADS];
    pthread_barrier_init(&all_flushed, NULL, (unsigned)times + 1);
    pthread_barrier_init(&all_end, NULL, (unsigned)times + 1);
    for (long at = 0; at < times; at++)
        pthread_create(&threads[at], NULL, flush, (void *)(uintptr_t)&pool->lines[number * times + at].words[0]);
    pthread_barrier_wait(&all_flushed);
    act(number);
    pthread_barrier_wait(&all_end);
    for (long at = 0; at < times; at++)
        pthread_join(threads[at], NULL);
}

static void nothing(long number) {
    (void)number;
}

static void crowd_beside(long number) {
    if (fork() == 0) {
        crowd(number + 1, nothing);
        _exit(0);
    }
    wait(NULL);
}

static void set_up(void) {
    pthread_mutexattr_t shared;
    int file = open(path, O_RDWR | O_CREAT | O_TRUNC, 0666);
    if (file < 0 || ftruncate(file, (off_t)sizeof *pool) != 0)
        abort();
    close(file);
    map_pool();
    pthread_mutexattr_init(&shared);
    pthread_mutexattr_setpshared(&shared, PTHREAD_PROCESS_SHARED);
    pthread_mutex_init(&pool->lock, &shared);
}

int main(int count, char **words) {
    if (count < 5)
        return 9;
    const char *kind = words[1];
    long children = atol(words[3]);
    path = words[2];
    times = atol(words[4]);
    if (strcmp(kind, "appends") == 0) {
        map_pool();
        append_all(atol(words[5]), children);
        return 0;
    }
    set_up();
    if (strcmp(kind, "outlives") == 0) {
        outlive();
        return 0;
    }
    if (strcmp(kind, "crowd") == 0) {
        crowd(0, crowd_beside);
        return 0;
    }
    if (strcmp(kind, "window") == 0) {
        save(&pool->lines[0].words[0], 1);
        PMTRIM_START();
        save(&pool->lines[0].words[1], 1);
        PMTRIM_STOP();
        return 0;
    }
    for (long number = 1; number <= children; number++) {
        pid_t begun = begin(words, number);
        if (strcmp(kind, "die") == 0)
            waitpid(begun, NULL, 0);
    }
    int worst = strcmp(kind, "die") == 0 ? 0 : wait_for(children);
    append_all(0, 0);
    return worst;
}
