/* threads POOL: eight threads write plainly to regions of their own, and make them persistent, which they claim each time. */
#define PMTRACE_LABELS
#include "pmtrace.h"

#include <libpmem.h>
#include <pthread.h>
#include <stdio.h>

enum { POOL = 1 << 15, THREADS = 8, REGION = 4096 };

static void *write_region(void *start) {
    unsigned char *region = (unsigned char *)start;
    for (int round = 1; round <= 20; round++) {
        for (int at = 0; at < REGION; at += 128)
            region[at + round] = (unsigned char)round;
        pmem_persist(region, REGION);
        pmtrace_is_persist(region, REGION);
    }
    return NULL;
}

int main(int argc, char **argv) {
    pthread_t threads[THREADS];
    size_t length;
    char *pool = argc == 2 ? (char *)pmem_map_file(argv[1], POOL, PMEM_FILE_CREATE, 0666, &length, NULL) : NULL;
    if (pool == NULL) {
        fprintf(stderr, "%s\n", pmem_errormsg());
        return 1;
    }
    for (int number = 0; number < THREADS; number++)
        pthread_create(&threads[number], NULL, write_region, pool + number * REGION);
    for (int number = 0; number < THREADS; number++)
        pthread_join(threads[number], NULL);
    return pmem_unmap(pool, length);
}
