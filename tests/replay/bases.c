/* A pool that grows, and a second one; recorded by pmtrace.h. Both are full of letters before they are opened. */
#define PMTRACE_IMPLEMENTATION
#include "pmtrace.h"

static struct {
    _Alignas(64) unsigned char first[300];
    _Alignas(64) unsigned char second[200000];
} pools;

int main(void) {
    memset(pools.first, 'a', sizeof pools.first);
    memset(pools.second, 'b', 100);
    pools.second[sizeof pools.second - 1] = 'c';
    pmtrace_open("bases.trace", pools.first, 100, 64);
    pmtrace_memset(pools.first + 50, 'x', 50);
    pmtrace_open("bases.trace", pools.first, sizeof pools.first, 64);
    pmtrace_open(NULL, pools.second, sizeof pools.second, 64);
    pmtrace_memset(pools.first + 200, 'y', 4);
    pmtrace_memset(pools.second, 'z', 8);
    pmtrace_persist(pools.first, sizeof pools.first);
    return pmtrace_close() == 0 ? 0 : 1;
}
