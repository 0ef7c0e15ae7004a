/* A child opens a window of its own, and claims an order of what its parent stored in the one before: inherited POOL. One fence saves
 * both, so a crash may keep the later one alone. */
#include "pmtrim_record.h"
#include <fcntl.h>
#include <immintrin.h>
#include <sys/mman.h>
#include <sys/wait.h>
#include <unistd.h>

enum { WORDS = 8 };

__attribute__((noinline)) void begin(void) {
    __asm__ volatile("");
}

int main(int count, char **words) {
    int file = open(words[1], O_RDWR | O_CREAT | O_TRUNC, 0666);
    if (count != 2 || file < 0 || ftruncate(file, 4096) != 0)
        return 1;
    long *pool = mmap(NULL, 4096, PROT_READ | PROT_WRITE, MAP_SHARED, file, 0);
    begin();
    pool[0] = pool[WORDS] = 1;
    _mm_clwb(&pool[0]);
    _mm_clwb(&pool[WORDS]);
    _mm_sfence();
    if (fork() == 0) {
        begin();
        PMTRIM_IS_ORDERED_BEFORE(&pool[0], 8, &pool[WORDS], 8);
        _exit(0);
    }
    wait(NULL);
    return 0;
}
