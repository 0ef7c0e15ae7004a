/* faults TRACE CASE: what a recorder meets. The trace is TRACE; what pmtrace_close answered is written to standard output. */
#include "pmtrace.h"

#include <pthread.h>
#include <semaphore.h>
#include <signal.h>
#include <stdio.h>
#include <stdlib.h>
#include <sys/wait.h>
#include <unistd.h>

enum { POOL = 9000000, PAGE = 4096 };

static unsigned char around[POOL + 2 * PAGE] __attribute__((aligned(4096)));
static unsigned char *const pool = around + PAGE;

static void save_a_word(void) {
    pmtrace_memcpy(pool, "a word..", 8);
    pmtrace_persist(pool, 8);
}

static pthread_barrier_t all_saved;

static void *save_a_word_and_wait(void *turn) {
    save_a_word();
    sem_post((sem_t *)turn);
    pthread_barrier_wait(&all_saved);
    return NULL;
}

static void *write_for_ever(void *page) {
    for (int byte = 0; byte >= 0; byte = (byte + 1) % 256)
        pmtrace_memset(page, byte, PAGE);
    return NULL;
}

static int close_and_tell(void) {
    int answer = pmtrace_close();
    printf("closed %d\n", answer);
    return 0;
}

/* Threads that write pages until the signal comes. */
static int wait_for_a_signal(void) {
    pthread_t thread;
    save_a_word();
    for (int number = 0; number < 4; number++)
        pthread_create(&thread, NULL, write_for_ever, pool + number * PAGE);
    printf("ready\n");
    fflush(stdout);
    pthread_join(thread, NULL);
    return 1;
}

static void leave(int number) {
    (void)number;
    exit(4);
}

/* A program that handles the signal itself, in the middle of a call. */
static int handle_a_signal(void) {
    signal(SIGTERM, leave);
    save_a_word();
    printf("ready\n");
    fflush(stdout);
    write_for_ever(pool);
    return 1;
}

/* More threads at one time than a trace has, which save a word one after another. */
static int count_threads(void) {
    static sem_t turn;
    pthread_t threads[257];
    sem_init(&turn, 0, 0);
    pthread_barrier_init(&all_saved, NULL, 257);
    for (int number = 0; number < 257; number++) {
        if (pthread_create(&threads[number], NULL, save_a_word_and_wait, &turn) != 0)
            return 1;
        sem_wait(&turn);
    }
    for (int number = 0; number < 257; number++)
        pthread_join(threads[number], NULL);
    return close_and_tell();
}

static int leave_the_pool(void) {
    pmtrace_memset(pool - 16, 1, 16);
    pmtrace_memset(pool - 8, 2, 16);
    pmtrace_memset(pool + POOL - 8, 3, 16);
    pmtrace_clwb(pool + POOL, 1);
    pmtrace_is_persist(pool - PAGE, 8);
    if (pool[-16] != 1 || pool[-1] != 2 || pool[0] != 2 || pool[POOL + 7] != 3)
        return 1;
    return close_and_tell();
}

static int fill_the_disk(void) {
    for (int page = 0; page < 100; page++)
        pmtrace_memset(pool + page * PAGE, page, PAGE);
    return close_and_tell();
}

static int fork_a_child(void) {
    save_a_word();
    pid_t child = fork();
    save_a_word();
    if (child == 0)
        _exit(0);
    waitpid(child, NULL, 0);
    return close_and_tell();
}

static int open_again(const char *trace) {
    char name[4096];
    save_a_word();
    if (pmtrace_close() != 0)
        return 1;
    snprintf(name, sizeof name, "%s.again", trace);
    if (pmtrace_open(name, pool + PAGE, PAGE, 128) != 0)
        return 1;
    pmtrace_memset(pool + PAGE + 200, 5, 1);
    pmtrace_persist(pool + PAGE + 200, 1);
    return close_and_tell();
}

static int run(const char *trace, const char *name) {
    if (strcmp(name, "abort") == 0) {
        save_a_word();
        abort();
    } else if (strcmp(name, "segfault") == 0) {
        save_a_word();
        pmtrace_memset((void *)(uintptr_t)8, 1, 1); /* under the lock */
    } else if (strcmp(name, "exit") == 0) {
        save_a_word();
        exit(3);
    } else if (strcmp(name, "signal") == 0) {
        return wait_for_a_signal();
    } else if (strcmp(name, "handler") == 0) {
        return handle_a_signal();
    } else if (strcmp(name, "threads") == 0) {
        return count_threads();
    } else if (strcmp(name, "outside") == 0) {
        return leave_the_pool();
    } else if (strcmp(name, "disk") == 0) {
        return fill_the_disk();
    } else if (strcmp(name, "fork") == 0) {
        return fork_a_child();
    } else if (strcmp(name, "again") == 0) {
        return open_again(trace);
    } else if (strcmp(name, "empty") == 0) {
        return close_and_tell();
    } else if (strcmp(name, "events") == 0 || (strcmp(name, "moves") == 0 && chdir("/") == 0)) {
        for (int at = 0; at < POOL; at += 8000)
            pmtrace_memset(pool + at, 1, 8000);
        return close_and_tell();
    }
    return 2;
}

int main(int argc, char **argv) {
    if (argc != 3)
        return 2;
    if (pmtrace_open(argv[1], pool, POOL, 64) != 0) {
        save_a_word(); /* without a trace */
        printf("not opened, %.6s\n", (const char *)pool);
        return 0;
    }
    return run(argv[1], argv[2]);
}
