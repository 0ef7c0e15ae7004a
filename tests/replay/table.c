/* A hash table, recorded by pmtrim-record: table POOL fills it, table check POOL looks at what a crash left. With WRONG the mark of a slot
 * is stored before its value. */
#include <immintrin.h>

#include "mapped.h"

enum { SLOTS = 16, KEYS = 8 };

struct slot {
    uint64_t key, value, full, none;
};

static void persist(const void *start) {
    _mm_clwb((void *)(uintptr_t)start);
    _mm_sfence();
}

static uint64_t value_of(uint64_t key) {
    return key * 0x9e3779b97f4a7c15u;
}

static void insert(volatile struct slot *table, uint64_t key) {
    uint64_t at = value_of(key) >> 60;
    while (table[at].full)
        at = (at + 1) % SLOTS;
#ifdef WRONG
    table[at].full = 1;
#endif
    table[at].key = key;
    table[at].value = value_of(key);
    table[at].full = 1;
    persist((const void *)&table[at]);
}

static int check(const struct slot *table) {
    for (int at = 0; at < SLOTS; at++) {
        if (table[at].full > 1 || (table[at].full && table[at].value != value_of(table[at].key))) {
            printf("slot %d has another's value\n", at);
            return 1;
        }
    }
    return 0;
}

int main(int count, char **words) {
    struct slot *table = map(words[count - 1], count == 2 ? SLOTS * sizeof *table : 0);
    if (count == 3)
        return check(table);
    for (uint64_t key = 1; key <= KEYS; key++)
        insert(table, key);
    return 0;
}
