/* watching TRACE FILE CASE: plain stores to a pool that is the file. What pmtrace_close answered is written to standard output. */
#define _DEFAULT_SOURCE 1
#include "pmtrace.h"

#include <fcntl.h>
#include <pthread.h>
#include <stdio.h>
#include <stdlib.h>
#include <sys/mman.h>
#include <unistd.h>

enum { PAGE = 4096, POOL = 16 * PAGE };

static volatile unsigned char *pool;
static int file;
static int stop;

static int close_and_tell(void) {
    int answer = pmtrace_close();
    printf("closed %d\n", answer);
    return 0;
}

static const void *at(int place) {
    return (const void *)(uintptr_t)(pool + place);
}

/* A mark is stored before the record that it vouches for is flushed, by an instruction that is complete at once. */
static int flush_at_once(void) {
    pool[0] = 1;
    pool[64] = 1;
    pmtrace_clflush(at(0), 8);
    pmtrace_is_ordered_before(at(0), 8, at(64), 8);
    return close_and_tell();
}

static void *toggle(void *none) {
    volatile uint64_t *word = (volatile uint64_t *)(uintptr_t)pool;
    while (!__atomic_load_n(&stop, __ATOMIC_RELAXED)) {
        __atomic_store_n(word, ~UINT64_C(0), __ATOMIC_RELAXED);
        __atomic_store_n(word, UINT64_C(0), __ATOMIC_RELAXED);
    }
    return none;
}

/* Another thread stores all bits and none by turns, while this one looks. */
static int store_meanwhile(void) {
    pthread_t thread;
    pthread_create(&thread, NULL, toggle, NULL);
    for (int look = 0; look < 20000; look++)
        pmtrace_sfence();
    __atomic_store_n(&stop, 1, __ATOMIC_RELAXED);
    pthread_join(thread, NULL);
    return close_and_tell();
}

static int unmap(void) {
    pool[0] = 1;
    pmtrace_persist(at(0), 1);
    pool[1] = 2;
    munmap((void *)(uintptr_t)pool, POOL);
    return close_and_tell();
}

static int forget_and_unmap(void) {
    pool[0] = 1;
    pmtrace_persist(at(0), 1);
    pool[1] = 2;
    pmtrace_forget(at(0), POOL);
    munmap((void *)(uintptr_t)pool, POOL);
    return close_and_tell();
}

/* A page is protected, as engines do with guards. */
static int protect(void) {
    pool[0] = 1;
    pmtrace_persist(at(0), 1);
    mprotect((void *)(uintptr_t)(pool + PAGE), PAGE, PROT_NONE);
    pmtrace_sfence();
    return close_and_tell();
}

/* The file is cut off; a look behind its end would end the program. */
static int cut_off(void) {
    pool[PAGE] = 1;
    if (ftruncate(file, PAGE) != 0)
        return 1;
    pmtrace_sfence();
    return close_and_tell();
}

/* The pool is written to by a system call, which no page tells of. */
static int write_to_file(void) {
    pool[0] = 1;
    if (pwrite(file, "ab", 2, 5000) != 2)
        return 1;
    pmtrace_persist(at(0), 1);
    return close_and_tell();
}

/* A system call writes to the mapping, which its pages tell. */
static int read_into_pool(void) {
    int ends[2];
    if (pipe(ends) != 0 || write(ends[1], "word", 4) != 4 || read(ends[0], (void *)(uintptr_t)(pool + 64), 4) != 4)
        return 1;
    pmtrace_persist(at(64), 4);
    return close_and_tell();
}

/* A store to every page and a persist of it, twice over. */
static int touch_pages(void) {
    for (int round = 1; round <= 2; round++) {
        for (int page = 0; page < POOL; page += PAGE) {
            pool[page + 8] = (unsigned char)round;
            pmtrace_persist(at(page + 8), 1);
        }
    }
    return close_and_tell();
}

int main(int argc, char **argv) {
    static const struct {
        const char *name;
        int (*run)(void);
    } cases[] = {
        {"at-once", flush_at_once}, {"meanwhile", store_meanwhile}, {"unmapped", unmap},        {"forgotten", forget_and_unmap},
        {"cut", cut_off},           {"protected", protect},         {"written", write_to_file}, {"read", read_into_pool},
        {"pages", touch_pages}};
    if (argc != 4 || (file = open(argv[2], O_RDWR | O_CREAT | O_TRUNC, 0666)) < 0 || ftruncate(file, POOL) != 0)
        return 2;
    void *place = mmap(NULL, POOL, PROT_READ | PROT_WRITE, MAP_SHARED, file, 0);
    pool = (volatile unsigned char *)place;
    if (place == MAP_FAILED || pmtrace_open(argv[1], place, POOL, 64) != 0 || pmtrace_watch() != 0)
        return 2;
    for (size_t number = 0; number < sizeof cases / sizeof cases[0]; number++) {
        if (strcmp(argv[3], cases[number].name) == 0)
            return cases[number].run();
    }
    return 2;
}
