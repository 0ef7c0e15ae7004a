/* Work in memory that is no pool, with a pool mapped beside it: compute POOL TRACE. */
#define PMTRACE_IMPLEMENTATION
#include "pmtrace.h"

#include <fcntl.h>
#include <stdlib.h>
#include <sys/mman.h>
#include <unistd.h>

enum { WORDS = 1 << 18, ROUNDS = 1500 };

int main(int count, char **words) {
    int file = open(words[1], O_RDWR | O_CREAT | O_TRUNC, 0666);
    if (count < 3 || file < 0 || ftruncate(file, 4096) != 0)
        return 1;
    uint64_t *pool = mmap(NULL, 4096, PROT_READ | PROT_WRITE, MAP_SHARED, file, 0);
    uint64_t *heap = calloc(WORDS, sizeof *heap), sum = 1;
    if (pool == MAP_FAILED || heap == NULL || pmtrace_open(words[2], pool, 4096, 64) != 0)
        return 1;
    for (int round = 0; round < ROUNDS; round++)
        for (int at = 0; at < WORDS; at++) {
            sum = sum * 6364136223846793005ULL + 1442695040888963407ULL;
            heap[sum >> 46] += sum ^ heap[at];
        }
    pmtrace_store(pool[0], sum + heap[5]);
    pmtrace_persist_at(PMTRACE_HERE, pool, 8);
    return pmtrace_close();
}
