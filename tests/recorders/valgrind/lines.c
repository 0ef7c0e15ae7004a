/* Events by functions that call each other, inlined and not: lines POOL. The comments say what stands in the label. */
#include <fcntl.h>
#include <immintrin.h>
#include <string.h>
#include <sys/mman.h>
#include <unistd.h>

static char *pool;

static inline __attribute__((always_inline)) void flush_range(const char *start, size_t length) {
    for (const char *line = start; line < start + length; line += 64)
        _mm_clwb((void *)line); /* flushes */
}

static __attribute__((noinline)) void persist(const char *start, size_t length) {
    flush_range(start, length); /* calls flush_range */
    _mm_sfence();               /* fences */
}

static __attribute__((noinline)) void insert(int number) {
    pool[64 * number] = (char)number; /* stores */
    persist(pool + 64 * number, 1);   /* calls persist */
    memset(pool + 64 * number + 1, number, 40); /* fills */
}

int main(int count, char **words) {
    int file = open(words[count - 1], O_RDWR | O_CREAT | O_TRUNC, 0666);
    if (file < 0 || ftruncate(file, 4096) != 0)
        return 1;
    pool = mmap(NULL, 4096, PROT_READ | PROT_WRITE, MAP_SHARED, file, 0);
    insert(1); /* calls insert */
    pwrite(file, "by the system", 13, 1024); /* writes */
    return 0;
}
