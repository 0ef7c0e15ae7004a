/* Each call of the recorder once or twice, over a pool that begins 24 bytes into a line. recorders.py says what must stand in the
 * trace. */
#define PMTRACE_LABELS
#include "pmtrace.h"

#include <errno.h>
#include <stdlib.h>

struct pair {
    uint32_t one, two;
};

static unsigned char page[1 << 15] __attribute__((aligned(4096)));

#define CHECK(claim) \
    do { \
        if (!(claim)) \
            exit(__LINE__ % 100 + 100); \
    } while (0)

int main(int argc, char **argv) {
    unsigned char *pool = page + 24;
    CHECK(argc == 2);
    pmtrace_store(pool[0], 7); /* before a trace is open */
    CHECK(pmtrace_open(argv[1], pool, 20000, 64) == 0);
    CHECK(pmtrace_open(argv[1], pool, 20000, 64) == 0); /* a pool that it has */
    CHECK(pmtrace_open("other.trace", pool, 20000, 64) == -1);
    CHECK(pmtrace_open(argv[1], pool, 20000, 128) == -1);
    CHECK(pmtrace_records(pool, 20000) && !pmtrace_records(pool - 1, 2) && !pmtrace_records(pool, 20001));
    errno = EDOM;
    CHECK(pmtrace_memcpy(pool + 5, "abcdefghijklmnopqrst", 20) == pool + 5);
    CHECK(pmtrace_memmove(pool + 6, pool + 5, 3) == pool + 6);
    CHECK(pmtrace_memset(pool + 40, 255, 9) == pool + 40);
    pmtrace_memcpy(pool + 40, NULL, 0);
    struct pair *pair = (struct pair *)(void *)(pool + 64);
    struct pair filled = {1, 2};
    pmtrace_store(*pair, filled);
    pmtrace_store(pair->two, 0x01020304u);
    uint64_t *word = (uint64_t *)(void *)(pool + 72), expected = 5;
    CHECK(pmtrace_exchange(word, 3) == 0);
    CHECK(!pmtrace_compare_exchange(word, &expected, 4) && expected == 3);
    CHECK(pmtrace_compare_exchange(word, &expected, 4));
    CHECK(pmtrace_fetch_add(word, 252) == 4 && *word == 256);
    pmtrace_clwb(pool + 39, 2);
    pmtrace_clwb(pool, 0);
    pmtrace_clflushopt(pool, 41);
    pmtrace_clflush(pool + 40, 64);
    pmtrace_sfence();
    pmtrace_mfence();
    pmtrace_persist(pool + 64, 8);
    pmtrace_is_persist(pool, 9000);
    pmtrace_is_ordered_before(pool, 4097, pool + 10000, 4096);
    CHECK(pmtrace_close() == -1 && errno == EDOM); /* since a call was refused */
    CHECK(pmtrace_close() == -1);
    pmtrace_store(pool[0], 9); /* after it was closed */
    return pool[0] == 9 ? 0 : 1;
}
