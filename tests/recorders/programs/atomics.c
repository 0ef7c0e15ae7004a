/* atomics TRACE: atomic operations of every size, volatile places, and structs with bytes between their fields. */
#include "pmtrace.h"

#include <stdlib.h>
#include <sys/types.h>
#include <unistd.h>

#ifdef __cplusplus
#define ATOMIC(type) std::atomic<type>
#else
#define ATOMIC(type) _Atomic(type)
#endif

struct entry {
    char kind;
    uint64_t key;
};

struct pair {
    uint64_t one, two;
};

static struct {
    uint32_t counter, beside;
    int8_t small;
    uint8_t flags;
    uint16_t half;
    volatile uint32_t ready;
    double number;
    void *pointer;
    struct pair pair __attribute__((aligned(16)));
    struct entry entries[2];
    ATOMIC(uint64_t) atomic;
    uint64_t outer, inner;
} pool __attribute__((aligned(64)));

#define CHECK(claim) \
    do { \
        if (!(claim)) \
            exit(__LINE__ % 100 + 100); \
    } while (0)

/* Leaves other bytes on the stack at each run. */
__attribute__((noinline)) static char dirty_the_stack(void) {
    volatile char bytes[4000];
    for (int at = 0; at < 4000; at++)
        bytes[at] = (char)(getpid() + at);
    return bytes[getpid() % 4000];
}

__attribute__((noinline)) static void put(int number, char kind, uint64_t key) {
    struct entry entry;
    entry.kind = kind;
    entry.key = key;
    pmtrace_store(pool.entries[number], entry);
}

int main(int argc, char **argv) {
    struct pair seen = {1, 2};
    struct pair filled = {3, 4}, other = {5, 6};
    double expected = 1.5;
    CHECK(argc == 2 && pmtrace_open(argv[1], &pool, sizeof pool, 64) == 0);
    pool.beside = 7;
    CHECK(pmtrace_fetch_add(&pool.counter, 1) == 0 && pool.counter == 1);
    CHECK(pmtrace_fetch_sub(&pool.counter, 2) == 1 && pool.counter == UINT32_MAX && pool.beside == 7);
    CHECK(pmtrace_fetch_sub(&pool.small, (int8_t)3) == 0 && pmtrace_fetch_add(&pool.small, (int8_t)1) == -3 && pool.small == -2);
    CHECK(pmtrace_fetch_or(&pool.flags, (uint8_t)0x81) == 0 && pmtrace_fetch_and(&pool.flags, (uint8_t)0xf0) == 0x81);
    CHECK(pmtrace_fetch_xor(&pool.flags, (uint8_t)0xff) == 0x80 && pool.flags == 0x7f);
    CHECK(pmtrace_exchange(&pool.half, (uint16_t)0x1234) == 0);
    pmtrace_store(pool.ready, 1);
    CHECK(pmtrace_fetch_add(&pool.ready, 1) == 1 && pmtrace_exchange(&pool.ready, 5) == 2 && pool.ready == 5);
    CHECK(pmtrace_exchange(&pool.number, 2.5) == 0 && !pmtrace_compare_exchange(&pool.number, &expected, 3.5) && expected == 2.5);
    CHECK(pmtrace_compare_exchange(&pool.number, &expected, 3.5) && pool.number == 3.5);
    CHECK(pmtrace_exchange(&pool.pointer, (void *)NULL) == NULL);
#ifdef __x86_64__
    CHECK(!pmtrace_compare_exchange(&pool.pair, &seen, filled) && seen.one == 0 && seen.two == 0);
    CHECK(pmtrace_compare_exchange(&pool.pair, &seen, filled) && pool.pair.one == 3 && pool.pair.two == 4);
    seen = pmtrace_exchange(&pool.pair, other);
    CHECK(seen.one == 3 && seen.two == 4 && pool.pair.two == 6);
#endif
    for (int number = 0; number < 2; number++) {
        (void)dirty_the_stack();
        put(number, (char)(number + 1), 9);
    }
    uint64_t eight = 8;
    pmtrace_store(pool.atomic, 7);
    CHECK(pmtrace_fetch_add(&pool.atomic, 1u) == 7 && pmtrace_compare_exchange(&pool.atomic, &eight, 9) &&
          pmtrace_exchange(&pool.atomic, 10) == 9);
    CHECK(pmtrace_fetch_add(&pool.outer, pmtrace_fetch_add(&pool.inner, 2) + 1) == 0 && pool.outer == 1 && pool.inner == 2);
    CHECK(pmtrace_close() == 0);
    return 0;
}
