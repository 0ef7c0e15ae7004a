/* Maps a file, which is made with this length where one is given. */
#ifndef MAPPED_H
#define MAPPED_H

#include <fcntl.h>
#include <stdint.h>
#include <stdio.h>
#include <stdlib.h>
#include <sys/mman.h>
#include <sys/stat.h>
#include <unistd.h>

static inline void *map(const char *name, size_t length) {
    struct stat status;
    int file = open(name, O_RDWR | (length > 0 ? O_CREAT | O_TRUNC : 0), 0666);
    if (file < 0 || (length > 0 && ftruncate(file, (off_t)length) != 0) || fstat(file, &status) != 0) {
        perror(name);
        exit(2);
    }
    void *start = mmap(NULL, (size_t)status.st_size, PROT_READ | PROT_WRITE, MAP_SHARED, file, 0);
    if (start == MAP_FAILED) {
        perror(name);
        exit(2);
    }
    return start;
}

#endif
