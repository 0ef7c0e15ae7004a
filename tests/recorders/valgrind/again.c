/* A window that opens again: again POOL. It opens when `begin` returns and closes at a call of `end`, three times; behind each end a store
 * is forgotten. */
#include <fcntl.h>
#include <immintrin.h>
#include <sys/mman.h>
#include <unistd.h>

enum { TIMES = 3, LINE = 64, POOL_BYTES = 4096 };

static volatile int calls;

__attribute__((noinline)) static void begin(void) {
    calls++;
}

__attribute__((noinline)) static void end(void) {
    calls--;
}

int main(int count, char **words) {
    int file = open(words[count - 1], O_RDWR | O_CREAT | O_TRUNC, 0666);
    if (file < 0 || ftruncate(file, POOL_BYTES) != 0)
        return 2;
    volatile char *pool = mmap(NULL, POOL_BYTES, PROT_READ | PROT_WRITE, MAP_SHARED, file, 0);
    for (char time = 1; time <= TIMES; time++) {
        begin();
        pool[LINE * time] = time;
        _mm_clwb((void *)(pool + LINE * time));
        _mm_sfence();
        end();
        pool[LINE * time + 8] = time;
    }
    return 0;
}
