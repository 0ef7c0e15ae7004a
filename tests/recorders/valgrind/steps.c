/* Does the steps of scripts to a pool: steps POOL SCRIPTS [whole]. A script ends with an empty line, and each of its lines is a thread's;
 * the threads begin together, and main waits for them. Of one thread main does the steps. Each script has a page of its own, and main
 * claims most of it first, so that the trace tells where a script begins. With `whole` the window is neither opened nor closed.
 *
 *     s AT LENGTH VALUE   stores bytes, as memset does     b AT LENGTH VALUE   by words, and by bytes beside them
 *     a AT VALUE          adds by a locked instruction     i AT                adds 1 by a load and a store
 *     n AT VALUE          a non-temporal store of 8 bytes
 *     f KIND AT           flushes a line (0: clwb, 1: clflushopt, 2: clflush)     e     fences
 *     p AT LENGTH         claims a range                   o AT LENGTH AT LENGTH          claims an order
 *     l, u                lock and unlock                  y                   yields
 *     W, C                opens and closes the window */
#define _GNU_SOURCE
#include "pmtrim_record.h"
#include <fcntl.h>
#include <immintrin.h>
#include <pthread.h>
#include <sched.h>
#include <stdint.h>
#include <stdio.h>
#include <stdlib.h>
#include <string.h>
#include <sys/mman.h>
#include <unistd.h>

enum { PAGE = 4096, MARKED = 4000, MOST_THREADS = 16, LINE_BYTES = 1 << 16 };

static char *pool;
static int whole;
static pthread_barrier_t together;
static pthread_mutex_t lock = PTHREAD_MUTEX_INITIALIZER;

__attribute__((target("clwb,clflushopt"))) static void flush(int kind, char *place) {
    if (kind == 0)
        _mm_clwb(place);
    else if (kind == 1)
        _mm_clflushopt(place);
    else
        _mm_clflush(place);
}

static void store_by_words(char *place, int length, int value) {
    long word;
    memset(&word, value, sizeof word);
    while (length > 0) {
        if ((uintptr_t)place % sizeof word == 0 && length >= (int)sizeof word) {
            *(volatile long *)(void *)place = word;
            place += sizeof word;
            length -= (int)sizeof word;
        } else {
            *(volatile char *)place++ = (char)value;
            length--;
        }
    }
}

static void window(char word) {
    if (whole)
        return;
    if (word == 'W')
        PMTRIM_START();
    else
        PMTRIM_STOP();
}

static void step(char word, const int *number) {
    if (word == 's')
        memset(pool + number[0], number[2], (size_t)number[1]);
    else if (word == 'b')
        store_by_words(pool + number[0], number[1], number[2]);
    else if (word == 'a')
        __atomic_fetch_add((long *)(void *)(pool + number[0]), number[1], __ATOMIC_SEQ_CST);
    else if (word == 'i')
        *(volatile long *)(void *)(pool + number[0]) += 1;
    else if (word == 'y')
        sched_yield();
    else if (word == 'f')
        flush(number[0], pool + number[1]);
    else if (word == 'e')
        _mm_sfence();
    else if (word == 'n')
        _mm_stream_si64((long long *)(void *)(pool + number[0]), number[1]);
    else if (word == 'p')
        PMTRIM_IS_PERSIST(pool + number[0], number[1]);
    else if (word == 'o')
        PMTRIM_IS_ORDERED_BEFORE(pool + number[0], number[1], pool + number[2], number[3]);
    else if (word == 'l')
        pthread_mutex_lock(&lock);
    else if (word == 'u')
        pthread_mutex_unlock(&lock);
    else
        window(word);
}

static void do_steps(const char *at) {
    char word;
    int length, number[4];
    while (sscanf(at, " %c%n", &word, &length) == 1 && at[0] != '\n') {
        int count = 0;
        at += length;
        while (count < 4 && sscanf(at, " %d%n", &number[count], &length) == 1) {
            at += length;
            count++;
        }
        step(word, number);
    }
}

static void *run(void *given) {
    pthread_barrier_wait(&together);
    do_steps(given);
    return NULL;
}

/* The lines of a script; how many. */
static int read_script(FILE *scripts, char lines[MOST_THREADS][LINE_BYTES]) {
    int count = 0;
    while (count < MOST_THREADS && fgets(lines[count], LINE_BYTES, scripts) != NULL && lines[count][0] != '\n')
        count++;
    return count;
}

static void run_script(char lines[MOST_THREADS][LINE_BYTES], int count) {
    pthread_t threads[MOST_THREADS];
    int at;
    PMTRIM_IS_PERSIST(pool, MARKED);
    if (count == 1) {
        do_steps(lines[0]);
        return;
    }
    pthread_barrier_init(&together, NULL, (unsigned)count);
    for (at = 0; at < count; at++)
        pthread_create(&threads[at], NULL, run, lines[at]);
    for (at = 0; at < count; at++)
        pthread_join(threads[at], NULL);
}

/* The pool has a page for each script already. */
int main(int given, char **words) {
    static char lines[MOST_THREADS][LINE_BYTES];
    int count, file = open(words[1], O_RDWR);
    off_t bytes = lseek(file, 0, SEEK_END);
    FILE *scripts = fopen(words[2], "r");
    if (file < 0 || scripts == NULL)
        return 2;
    whole = given > 3;
    pool = mmap(NULL, (size_t)bytes, PROT_READ | PROT_WRITE, MAP_SHARED, file, 0);
    for (; (count = read_script(scripts, lines)) > 0; pool += PAGE)
        run_script(lines, count);
    return 0;
}
