/* A store from before the window that is never flushed, and a claim in it: carried POOL [function | read]. The window opens when `set_up`
 * returns where the recorder is told so, or else at a request. By `read` the system stores first what is stored then. */
#include "pmtrim_record.h"
#include <fcntl.h>
#include <immintrin.h>
#include <string.h>
#include <sys/mman.h>
#include <unistd.h>

enum { SAVED = 128, POOL_BYTES = 4096 };

static char *pool;

__attribute__((noinline)) static void set_up(void) {
    pool[0] = 7; /* forgotten */
    __asm__ volatile("" ::: "memory");
}

static void save(char *place) {
    _mm_clwb(place);
    _mm_sfence();
}

int main(int count, char **words) {
    int file = open(words[1], O_RDWR | O_CREAT | O_TRUNC, 0666);
    if (file < 0 || ftruncate(file, POOL_BYTES) != 0)
        return 2;
    pool = mmap(NULL, POOL_BYTES, PROT_READ | PROT_WRITE, MAP_SHARED, file, 0);
    pool[2 * SAVED] = 9;
    save(&pool[2 * SAVED]);
    if (count == 3 && words[2][0] == 'r') {
        int ends[2];
        if (pipe(ends) != 0 || write(ends[1], "\5", 1) != 1 || read(ends[0], pool, 1) != 1)
            return 2;
    }
    set_up();
    if (count == 2 || words[2][0] == 'r')
        PMTRIM_START();
    pool[SAVED] = 1;
    save(&pool[SAVED]);
    PMTRIM_IS_PERSIST(pool, 1);
    return 0;
}
