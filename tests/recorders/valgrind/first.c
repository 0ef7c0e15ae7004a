/* Functions whose first instructions are events: first POOL. The comments say what stands in the label. */
#include <fcntl.h>
#include <immintrin.h>
#include <sys/mman.h>
#include <unistd.h>

#define APART __attribute__((noipa))

static APART void store_first(long *place, long value) {
    *place = value; /* stores */
}

static APART void flush_first(const long *place) {
    _mm_clwb((void *)place); /* flushes */
}

static APART void fence_first(void) {
    _mm_sfence(); /* fences */
}

/* Only the stack pointer is moved before. */
static APART long flush_second(const long *place) {
    volatile long held[16];
    _mm_clwb((void *)place); /* flushes in a frame */
    fence_first();           /* calls fence_first in a frame */
    held[0] = *place;
    return held[0];
}

/* By a call of it the translator does not know where it leads, and does not go on there. */
static long (*volatile called_later)(const long *) = flush_second;

static APART long change(long *place) {
    store_first(place, 1);               /* calls store_first */
    store_first(place + 1, 2);           /* calls it again */
    flush_first(place);                  /* calls flush_first */
    fence_first();                       /* calls fence_first */
    return called_later(place) + *place; /* calls flush_second */
}

int main(int count, char **words) {
    int file = count == 2 ? open(words[1], O_RDWR | O_CREAT | O_TRUNC, 0666) : -1;
    if (file < 0 || ftruncate(file, 4096) != 0)
        return 1;
    long *pool = mmap(NULL, 4096, PROT_READ | PROT_WRITE, MAP_SHARED, file, 0);
    return change(pool) == 2 ? 0 : 1; /* calls change */
}
