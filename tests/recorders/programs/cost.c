/* cost TRACE FILE: writes to standard output the nanoseconds of processor time that a recorded store takes, a write(2) of its event to
 * a file, and a store and a watched persist of one line in a pool of 64 MB, which is the file. */
#define _DEFAULT_SOURCE 1
#include "pmtrace.h"

#include <fcntl.h>
#include <stdio.h>
#include <sys/mman.h>
#include <time.h>
#include <unistd.h>

enum { POOL = 64 << 20, STORES = 200000, PERSISTS = 50 };

static double now(void) {
    struct timespec time;
    clock_gettime(CLOCK_PROCESS_CPUTIME_ID, &time);
    return (double)time.tv_sec * 1e9 + (double)time.tv_nsec;
}

static double time_stores(volatile uint64_t *words) {
    double start = now();
    for (int number = 0; number < STORES; number++)
        pmtrace_store(words[number % 4096], (uint64_t)number);
    return (now() - start) / STORES;
}

static double time_writes(int file) {
    static const char line[] = "store 0 0x1000 0102030405060708\n";
    double start = now();
    for (int number = 0; number < STORES; number++) {
        if (write(file, line, sizeof line - 1) < 0)
            return 0;
    }
    return (now() - start) / STORES;
}

static double time_persists(volatile uint64_t *words) {
    double start = now();
    for (int number = 0; number < PERSISTS; number++) {
        words[8] = (uint64_t)number + 1;
        pmtrace_persist((const void *)(uintptr_t)&words[8], 8);
    }
    return (now() - start) / PERSISTS;
}

int main(int argc, char **argv) {
    int file = argc == 3 ? open(argv[2], O_RDWR | O_CREAT | O_TRUNC, 0666) : -1;
    double writes = time_writes(file);
    if (file < 0 || ftruncate(file, POOL) != 0)
        return 2;
    void *pool = mmap(NULL, POOL, PROT_READ | PROT_WRITE, MAP_SHARED, file, 0);
    if (pool == MAP_FAILED || pmtrace_open(argv[1], pool, POOL, 64) != 0)
        return 2;
    double stores = time_stores((volatile uint64_t *)pool);
    if (pmtrace_watch() != 0)
        return 2;
    time_persists((volatile uint64_t *)pool);
    printf("%.0f %.0f %.0f\n", stores, writes, time_persists((volatile uint64_t *)pool));
    return pmtrace_close() == 0 ? 0 : 1;
}
