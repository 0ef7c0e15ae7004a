/* What the system does to a pool's file: system POOL. */
#define _GNU_SOURCE
#include <fcntl.h>
#include <stdio.h>
#include <stdlib.h>
#include <string.h>
#include <sys/mman.h>
#include <sys/uio.h>
#include <unistd.h>

static void must(int right, const char *what) {
    if (!right) {
        perror(what);
        exit(1);
    }
}

int main(int count, char **words) {
    const char *name = words[count - 1];
    int file = open(name, O_RDWR | O_CREAT | O_TRUNC, 0666), through = open(name, O_RDWR | O_DSYNC), end = open(name, O_RDWR | O_APPEND);
    must(file >= 0 && through >= 0 && end >= 0 && ftruncate(file, 12288) == 0 && pwrite(file, "not yet a pool", 14, 12000) == 14, name);
    volatile long *pool = mmap(NULL, 12288, PROT_READ | PROT_WRITE, MAP_SHARED, file, 0);
    must(pool != MAP_FAILED, "mmap");
    pool[0] = 1;
    pool[17] = 2;
    pool[600] = 3;
    must(msync((void *)pool, 4096, MS_ASYNC) == 0, "msync");
    pool[18] = 5;
    must(msync((void *)pool, 100, MS_SYNC) == 0, "msync");
    must(pwrite(file, "12345678abc", 11, 4100) == 11 && fsync(file) == 0, "fsync");
    must(pwrite(through, "through", 7, 64) == 7, "O_DSYNC");
    pool[1] = 4;
    must(fdatasync(through) == 0 && fdatasync(file) == 0, "fdatasync");
    must(pwritev2(file, &(struct iovec){"flag", 4}, 1, 128, RWF_DSYNC) == 4, "pwritev2");
    /* Linux appends, whatever the place is */
    must(pwrite(end, "at the end", 10, 5) == 10, "O_APPEND");
    must(fallocate(file, FALLOC_FL_PUNCH_HOLE | FALLOC_FL_KEEP_SIZE, 4100, 5) == 0, "fallocate");
    must(ftruncate(file, 12000) == 0 && ftruncate(file, 12288) == 0, "ftruncate");
    return 0;
}
