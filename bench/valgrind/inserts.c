/* Threads put records into a hash table: inserts POOL TRACE THREADS. With pmtrace.h it is recorded by that; with the header of
 * tests/recorders/valgrind/real it is a plain program. About 300,000 events. */
#define PMTRACE_IMPLEMENTATION
#define PMTRACE_LABELS
#include "pmtrace.h"

#include <fcntl.h>
#include <pthread.h>
#include <stdlib.h>
#include <sys/mman.h>
#include <unistd.h>

enum { SLOTS = 1 << 16, INSERTS = 50000 };

struct slot {
    uint64_t key, value, sum, used;
};

static struct slot *slots;
static int threads;

static void insert(uint64_t key) {
    struct slot *slot = &slots[key * 0x9E3779B97F4A7C15ULL >> 48];
    while (__atomic_load_n(&slot->used, __ATOMIC_RELAXED) != 0)
        slot = slot == &slots[SLOTS - 1] ? slots : slot + 1;
    pmtrace_store(slot->key, key);
    pmtrace_store(slot->value, key * 7);
    pmtrace_store(slot->sum, key * 8);
    pmtrace_persist_at(PMTRACE_HERE, slot, 24);
    pmtrace_store(slot->used, (uint64_t)1);
}

static void *work(void *number) {
    for (uint64_t key = (uint64_t)(uintptr_t)number; key < INSERTS; key += (uint64_t)threads)
        insert(key + 1);
    return NULL;
}

int main(int count, char **words) {
    pthread_t started[16];
    int file = open(words[1], O_RDWR | O_CREAT | O_TRUNC, 0666);
    threads = count > 3 ? atoi(words[3]) : 1;
    if (file < 0 || ftruncate(file, SLOTS * sizeof *slots) != 0)
        return 1;
    slots = mmap(NULL, SLOTS * sizeof *slots, PROT_READ | PROT_WRITE, MAP_SHARED, file, 0);
    if (slots == MAP_FAILED || pmtrace_open(words[2], slots, SLOTS * sizeof *slots, 64) != 0)
        return 1;
    for (uintptr_t number = 0; number < (uintptr_t)threads; number++)
        if (pthread_create(&started[number], NULL, work, (void *)number) != 0)
            return 1;
    for (int number = 0; number < threads; number++)
        pthread_join(started[number], NULL);
    return pmtrace_close();
}
