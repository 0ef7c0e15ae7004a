/* parts TRACE [whole]: does what standard input says, a line for each call, by the thread that it names; with `whole` the window is left
 * open:
 *   store T PLACE LENGTH | clwb T PLACE | clflush T PLACE | sfence T | persist T PLACE LENGTH | stop T | start T
 *   is_persist T PLACE LENGTH | is_ordered_before T PLACE LENGTH PLACE LENGTH */
#include "pmtrace.h"

#include <pthread.h>
#include <stdio.h>
#include <stdlib.h>

enum { POOL = 1024, THREADS = 3 };

struct call {
    char word[32];
    size_t numbers[4];
};

static unsigned char pool[POOL] __attribute__((aligned(64)));
static pthread_mutex_t lock = PTHREAD_MUTEX_INITIALIZER;
static pthread_cond_t changed = PTHREAD_COND_INITIALIZER;
static struct call next;
static int turn = -1; /* whose call `next` is; THREADS at the end */
static bool whole;

static bool is(const char *word) {
    return strcmp(next.word, word) == 0;
}

static void call(void) {
    static unsigned char value;
    unsigned char bytes[64];
    const size_t *n = next.numbers;
    if (is("store")) {
        memset(bytes, ++value, sizeof bytes);
        pmtrace_memcpy(pool + n[0], bytes, n[1]);
    } else if (is("clwb")) {
        pmtrace_clwb(pool + n[0], 1);
    } else if (is("clflush")) {
        pmtrace_clflush(pool + n[0], 1);
    } else if (is("sfence")) {
        pmtrace_sfence();
    } else if (is("persist")) {
        pmtrace_persist(pool + n[0], n[1]);
    } else if (is("is_persist")) {
        pmtrace_is_persist(pool + n[0], n[1]);
    } else if (is("is_ordered_before")) {
        pmtrace_is_ordered_before(pool + n[0], n[1], pool + n[2], n[3]);
    } else if (is("stop") && !whole) {
        pmtrace_stop();
    } else if (is("start") && !whole) {
        pmtrace_start();
    }
}

static void *take_turns(void *own) {
    int number = *(const int *)own;
    pthread_mutex_lock(&lock);
    while (turn != THREADS) {
        if (turn == number) {
            call();
            turn = -1;
            pthread_cond_broadcast(&changed);
        } else {
            pthread_cond_wait(&changed, &lock);
        }
    }
    pthread_mutex_unlock(&lock);
    return NULL;
}

static void let(int number) {
    turn = number;
    pthread_cond_broadcast(&changed);
    while (number < THREADS && turn != -1)
        pthread_cond_wait(&changed, &lock);
}

int main(int argc, char **argv) {
    static int numbers[THREADS] = {0, 1, 2};
    pthread_t threads[THREADS];
    char line[128];
    whole = argc == 3;
    if (argc < 2 || pmtrace_open(argv[1], pool, POOL, 64) != 0)
        return 1;
    for (int number = 0; number < THREADS; number++) {
        if (pthread_create(&threads[number], NULL, take_turns, &numbers[number]) != 0)
            return 1;
    }
    pthread_mutex_lock(&lock);
    while (fgets(line, sizeof line, stdin) != NULL) {
        int thread;
        size_t *n = next.numbers;
        if (sscanf(line, "%31s %d %zu %zu %zu %zu", next.word, &thread, &n[0], &n[1], &n[2], &n[3]) < 2 || thread < 0 ||
            thread >= THREADS)
            return 2;
        let(thread);
    }
    let(THREADS);
    pthread_mutex_unlock(&lock);
    for (int number = 0; number < THREADS; number++)
        pthread_join(threads[number], NULL);
    return pmtrace_close() == 0 ? 0 : 1;
}
