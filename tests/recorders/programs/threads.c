/* threads PREFIX turns|free [forget]: a dozen threads write to slices of a pool of their own, flush, fence and assert, and count
 * the slices in a word that they share. The trace is PREFIX.trace, and PREFIX.memory holds the memory's last bytes. In turns
 * every call has its turn. With `forget` thread 5 does not flush its slice 7. */
#define PMTRACE_LABELS
#include "pmtrace.h"

#include <pthread.h>
#include <stdio.h>
#include <stdlib.h>
#include <sys/mman.h>

enum { THREADS = 12, SLICES = 10, SLICE = 8192, HEAD = 4096, POOL = HEAD + THREADS * SLICES * SLICE };

static unsigned char *pool;
static bool in_turns, forgets;
static unsigned turn;
static pthread_mutex_t turns = PTHREAD_MUTEX_INITIALIZER;
static pthread_cond_t next = PTHREAD_COND_INITIALIZER;
static pthread_barrier_t all_written, all_counted;

static void take_turn(unsigned thread) {
    if (in_turns) {
        pthread_mutex_lock(&turns);
        while (turn % THREADS != thread)
            pthread_cond_wait(&next, &turns);
        pthread_mutex_unlock(&turns);
    }
}

static void give_turn(void) {
    if (in_turns) {
        pthread_mutex_lock(&turns);
        turn++;
        pthread_cond_broadcast(&next);
        pthread_mutex_unlock(&turns);
    }
}

#define IN_TURN(thread, call) \
    do { \
        take_turn(thread); \
        call; \
        give_turn(); \
    } while (0)

static void write_slice(unsigned thread, unsigned number) {
    unsigned char bytes[SLICE];
    unsigned char *slice = pool + HEAD + (thread * SLICES + number) * SLICE;
    size_t length = 1 + (thread * 977 + number * 1613) % 6000, from = (thread + 3 * number) % 64;
    bool forgotten = forgets && thread == 5 && number == 7;
    for (size_t at = 0; at < length; at++)
        bytes[at] = (unsigned char)(at * (thread + 1) + number + 1);
    IN_TURN(thread, pmtrace_memcpy(slice + from, bytes, length)); /* forgotten */
    if (!forgotten && number % 3 == 0)
        IN_TURN(thread, pmtrace_persist(slice + from, length));
    else if (!forgotten && number % 3 == 1)
        IN_TURN(thread, pmtrace_clwb(slice + from, length));
    else if (!forgotten)
        IN_TURN(thread, pmtrace_clflush(slice + from, length));
    else
        IN_TURN(thread, (void)0);
    IN_TURN(thread, pmtrace_sfence());
    IN_TURN(thread, pmtrace_is_persist(slice + from, length)); /* claimed */
    IN_TURN(thread, pmtrace_memset(slice + 7000, 1, 20));
    IN_TURN(thread, pmtrace_persist(slice + 7000, 20));
    IN_TURN(thread, pmtrace_is_ordered_before(slice + from, length, slice + 7000, 20));
    IN_TURN(thread, pmtrace_fetch_add((uint64_t *)(void *)pool, 1));
}

static void *write_slices(void *number) {
    for (unsigned slice = 0; slice < SLICES; slice++)
        write_slice((unsigned)(uintptr_t)number, slice);
    pthread_barrier_wait(&all_written);
    pthread_barrier_wait(&all_counted); /* till then the thread has its number */
    return NULL;
}

static bool write_memory(const char *name) {
    FILE *file = fopen(name, "wb");
    return file != NULL && fwrite(pool, 1, POOL, file) == POOL && fclose(file) == 0;
}

int main(int argc, char **argv) {
    char name[4096];
    pthread_t threads[THREADS];
    if (argc < 3)
        return 2;
    in_turns = strcmp(argv[2], "turns") == 0;
    forgets = argc == 4;
    pool = (unsigned char *)mmap(NULL, POOL, PROT_READ | PROT_WRITE, MAP_PRIVATE | MAP_ANONYMOUS, -1, 0);
    snprintf(name, sizeof name, "%s.trace", argv[1]);
    if (pool == MAP_FAILED || pmtrace_open(name, pool, POOL, 64) != 0)
        return 1;
    pthread_barrier_init(&all_written, NULL, THREADS + 1);
    pthread_barrier_init(&all_counted, NULL, THREADS + 1);
    for (uintptr_t number = 0; number < THREADS; number++) {
        if (pthread_create(&threads[number], NULL, write_slices, (void *)number) != 0)
            return 1;
    }
    pthread_barrier_wait(&all_written);
    pmtrace_persist(pool, 8);
    pthread_barrier_wait(&all_counted);
    for (int number = 0; number < THREADS; number++)
        pthread_join(threads[number], NULL);
    if (pmtrace_close() != 0)
        return 1;
    snprintf(name, sizeof name, "%s.memory", argv[1]);
    return write_memory(name) ? 0 : 1;
}
