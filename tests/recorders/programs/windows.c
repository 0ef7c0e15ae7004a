/* windows TRACE CASE: what is recorded between pmtrace_start and pmtrace_stop. What pmtrace_close answered is written to standard
 * output. */
#define PMTRACE_LABELS
#include "pmtrace.h"

#include <pthread.h>
#include <stdio.h>
#include <stdlib.h>

enum { POOL = 1 << 24 };

static unsigned char pool[POOL] __attribute__((aligned(4096)));

static int close_and_tell(void) {
    int answer = pmtrace_close();
    printf("closed %d\n", answer);
    return 0;
}

static void work(void) {
    pmtrace_store(pool[0], 7);
    pmtrace_persist(pool, 1);
    pmtrace_is_persist(pool, POOL < 4096 ? POOL : 4096);
}

static void *flush_only(void *none) {
    pmtrace_clwb(pool + 192, 1);
    return none;
}

/* The whole pool is formatted and made safe before the window. */
static int format(void) {
    pmtrace_stop();
    pmtrace_memset(pool, 1, POOL);
    pmtrace_persist(pool, POOL);
    pmtrace_start();
    work();
    return close_and_tell();
}

/* Before the window a line is made safe, one is flushed and not fenced, one is stored to again, one is flushed by a thread that
 * has ended, one is flushed at once. */
static int unsafe(void) {
    pthread_t thread;
    pmtrace_stop();
    for (int line = 0; line < 5; line++)
        pmtrace_memset(pool + 64 * line + 8, 10 + line, 8);
    pmtrace_persist(pool, 1);
    pmtrace_persist(pool + 64, 1);
    pmtrace_clwb(pool + 64, 1);
    pmtrace_store(pool[72], 99);
    pthread_create(&thread, NULL, flush_only, NULL);
    pthread_join(thread, NULL);
    pmtrace_clflush(pool + 256, 1);
    pmtrace_clwb(pool + 128, 1);
    pmtrace_start();
    pmtrace_is_persist(pool, 64);
    pmtrace_is_persist(pool + 64, 64);
    pmtrace_is_persist(pool + 128, 64);
    pmtrace_sfence();
    pmtrace_is_persist(pool + 128, 64);
    pmtrace_is_persist(pool + 192, 64);
    pmtrace_is_persist(pool + 256, 64);
    return close_and_tell();
}

/* A record that is never flushed stands in the window, and a mark that is saved outside. */
static int order(void) {
    pmtrace_store(pool[0], 1);
    pmtrace_stop();
    pmtrace_store(pool[64], 2);
    pmtrace_persist(pool + 64, 1);
    pmtrace_start();
    pmtrace_is_ordered_before(pool, 1, pool + 64, 1);
    return close_and_tell();
}

/* Plain stores before the window. */
static int plain(void) {
    pmtrace_watch();
    pmtrace_stop();
    pool[0] = 1;
    pool[64] = 2;
    pmtrace_persist(pool, 1);
    pmtrace_start();
    pool[128] = 3;
    pmtrace_stop();
    pool[192] = 4;
    return close_and_tell();
}

/* The pool is formatted in the window. */
static int fill(void) {
    work();
    pmtrace_memset(pool, 1, POOL);
    work();
    return close_and_tell();
}

/* What is formatted before the window is not made safe. */
static int fill_unsafe(void) {
    pmtrace_stop();
    pmtrace_memset(pool, 1, POOL);
    pmtrace_start();
    work();
    return close_and_tell();
}

/* Rounds of seven events each. The window is the environment's. */
static int rounds(void) {
    for (int round = 0; round < 5; round++) {
        pmtrace_memset(pool + 64 * round, round + 1, 16);
        pmtrace_persist(pool + 64 * round, 16);
        pmtrace_is_persist(pool + 64 * round, 16);
        pmtrace_store(pool[1024], (unsigned char)round);
        pmtrace_sfence();
    }
    return close_and_tell();
}

int main(int argc, char **argv) {
    static const struct {
        const char *name;
        int (*run)(void);
    } cases[] = {{"format", format}, {"unsafe", unsafe},           {"order", order},  {"plain", plain},
                 {"fill", fill},     {"fill-unsafe", fill_unsafe}, {"rounds", rounds}};
    if (argc != 3)
        return 2;
    if (pmtrace_open(argv[1], pool, POOL, 64) != 0)
        return 1;
    for (size_t number = 0; number < sizeof cases / sizeof cases[0]; number++) {
        if (strcmp(argv[2], cases[number].name) == 0)
            return cases[number].run();
    }
    return 2;
}
