/* numbers TRACE: a thread for each request, a thousand of them, of which some end with an open flush. */
#include "pmtrace.h"

#include <pthread.h>
#include <stdlib.h>

static uint64_t pool[8] __attribute__((aligned(64)));

static void *serve(void *number) {
    pmtrace_store(pool[1], (uint64_t)(uintptr_t)number);
    pmtrace_clwb(&pool[1], 8);
    if ((uintptr_t)number % 250 != 0)
        pmtrace_sfence();
    return NULL;
}

int main(int argc, char **argv) {
    pthread_t thread;
    if (argc != 2 || pmtrace_open(argv[1], pool, sizeof pool, 64) != 0)
        return 2;
    pmtrace_store(pool[0], 1);
    for (uintptr_t number = 1; number <= 1000; number++) {
        if (pthread_create(&thread, NULL, serve, (void *)number) != 0 || pthread_join(thread, NULL) != 0)
            return 1;
    }
    return pmtrace_close() == 0 ? 0 : 1;
}
