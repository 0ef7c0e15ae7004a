/* Maps a file that holds some bytes already, formats it, lets it grow, and maps another one; recorded by pmtrim-record. */
#define _GNU_SOURCE
#include <fcntl.h>
#include <string.h>
#include <sys/mman.h>
#include <unistd.h>

static volatile char *pool;

__attribute__((noinline)) void format(void) {
    memset((char *)pool, 'f', 64);
    __asm__ volatile("clwb (%0)\n sfence" : : "r"(pool) : "memory");
}

int main(void) {
    int file = open("one.pool", O_RDWR | O_CREAT | O_TRUNC, 0666), other = open("two.pool", O_RDWR | O_CREAT | O_TRUNC, 0666);
    if (ftruncate(file, 4096) != 0 || pwrite(file, "before", 6, 100) != 6 || ftruncate(other, 4096) != 0 || pwrite(other, "other", 5, 0) != 5)
        return 2;
    pool = mmap(NULL, 4096, PROT_READ | PROT_WRITE, MAP_SHARED, file, 0);
    format();
    pool[0] = 'x';
    if (ftruncate(file, 8192) != 0)
        return 2;
    pool = mremap((char *)pool, 4096, 8192, MREMAP_MAYMOVE);
    pool[5000] = 'y';
    char *second = mmap(NULL, 4096, PROT_READ | PROT_WRITE, MAP_SHARED, other, 0);
    second[1] = 'z';
    return 0;
}
