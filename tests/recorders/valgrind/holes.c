/* A hole is made in a file that was full, of so many megabytes: holes POOL MEGABYTES [advice], by fallocate or by madvise. The file ends in the
 * middle of its last page. */
#define _GNU_SOURCE
#include <fcntl.h>
#include <stdlib.h>
#include <string.h>
#include <sys/mman.h>
#include <unistd.h>

int main(int argc, char **argv) {
    static char full[1 << 20];
    size_t length = argc > 2 ? (size_t)atoi(argv[2]) << 20 : 0;
    int file = length > 0 ? open(argv[1], O_RDWR | O_CREAT | O_TRUNC, 0666) : -1;
    if (file < 0)
        return 1;
    memset(full, 1, sizeof full);
    for (size_t at = 0; at < length; at += sizeof full)
        if (write(file, full, sizeof full) != sizeof full)
            return 1;
    if (write(file, "the end", 7) != 7)
        return 1;
    char *pool = mmap(NULL, length + 4096, PROT_READ | PROT_WRITE, MAP_SHARED, file, 0);
    if (pool == MAP_FAILED)
        return 1;
    pool[length + 2] = 'x';
    pool[length + 7] = 'x'; /* behind the end: it is in no file */
    memcpy(pool + length + 4, "abcdefgh", 8); /* so is the rest of this */
    if (ftruncate(file, (off_t)length + 5) != 0)
        return 1;
    pool[length + 5] = 'y';
    if (argc > 3)
        return madvise(pool, length, MADV_REMOVE);
    return fallocate(file, FALLOC_FL_PUNCH_HOLE | FALLOC_FL_KEEP_SIZE, 0, (off_t)length);
}
