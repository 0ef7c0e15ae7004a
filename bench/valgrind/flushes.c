/* A loop that saves words, each in a line of its own: flushes POOL. 300,000 saves, 900,000 events. */
#include <fcntl.h>
#include <immintrin.h>
#include <stdlib.h>
#include <sys/mman.h>
#include <unistd.h>

enum { SAVES = 300000, BYTES = 1 << 20, LINE = 64 };

int main(int count, char **words) {
    int file = open(words[1], O_RDWR | O_CREAT | O_TRUNC, 0666);
    if (count < 2 || file < 0 || ftruncate(file, BYTES) != 0)
        return 1;
    char *pool = mmap(NULL, BYTES, PROT_READ | PROT_WRITE, MAP_SHARED, file, 0);
    if (pool == MAP_FAILED)
        return 1;
    for (long at = 0; at < SAVES; at++) {
        long *word = (long *)(void *)(pool + at * LINE % BYTES);
        *word = at;
        _mm_clwb(word);
        _mm_sfence();
    }
    return 0;
}
