/* An engine that is a plugin, and has the recorder in it. */
#define PMTRACE_IMPLEMENTATION
#include "pmtrace.h"

static uint64_t pool[8] __attribute__((aligned(64)));

int begin(const char *trace);
void put(uint64_t value);
int end(void);

int begin(const char *trace) {
    return pmtrace_open(trace, pool, sizeof pool, 64);
}

void put(uint64_t value) {
    pmtrace_store(pool[0], value);
    pmtrace_persist(pool, 8);
}

int end(void) {
    return pmtrace_close();
}
