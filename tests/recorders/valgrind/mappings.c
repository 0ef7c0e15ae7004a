/* Pools that are mapped, mapped again, moved and left: mappings FOLDER. The files one and two are pools, other is not. */
#define _GNU_SOURCE
#include <fcntl.h>
#include <stdio.h>
#include <stdlib.h>
#include <string.h>
#include <sys/mman.h>
#include <sys/shm.h>
#include <unistd.h>

enum { PAGE = 4096 };

static char *must(void *place, const char *what) {
    if (place == MAP_FAILED) {
        perror(what);
        exit(1);
    }
    return place;
}

static int create(const char *folder, const char *name, int pages) {
    char path[4096];
    snprintf(path, sizeof path, "%s/%s", folder, name);
    int file = open(path, O_RDWR | O_CREAT | O_TRUNC, 0666);
    if (file < 0 || ftruncate(file, pages * PAGE) != 0) {
        perror(path);
        exit(1);
    }
    return file;
}

static char *map(int file, int first, int pages) {
    return must(mmap(NULL, (size_t)pages * PAGE, PROT_READ | PROT_WRITE, MAP_SHARED, file, first * PAGE), "mmap");
}

int main(int count, char **words) {
    const char *folder = words[count - 1];
    int one = create(folder, "one.pool", 16), other = create(folder, "other", 2);
    char *first = map(one, 0, 4), *not_a_pool = map(other, 0, 2);
    strcpy(first + 10, "mapped first");
    strcpy(not_a_pool, "in no pool");
    char *private = must(mmap(NULL, PAGE, PROT_READ | PROT_WRITE, MAP_PRIVATE, one, 0), "private");
    strcpy(private + 10, "a copy of one's own");
    char *again = map(one, 2, 4);
    strcpy(again + 20, "through the second mapping");
    strcpy(first + 3 * PAGE, "where both are");
    int two = create(folder, "two.pool", 4);
    char *later = map(two, 0, 4);
    strcpy(later + 30, "a pool that is mapped later");
    /* across the end of a page, as one store */
    *(long *)(later + PAGE - 3) = 0x1122334455667788;
    first = must(mremap(first, 4 * PAGE, 12 * PAGE, MREMAP_MAYMOVE), "mremap");
    strcpy(first + 10 * PAGE, "where it has grown");
    char *target = must(mmap(NULL, 16 * PAGE, PROT_NONE, MAP_PRIVATE | MAP_ANONYMOUS, -1, 0), "target");
    later = must(mremap(later, 4 * PAGE, 4 * PAGE, MREMAP_MAYMOVE | MREMAP_FIXED, target), "mremap to a place");
    strcpy(later + 2 * PAGE + 100, "where it was moved to");
    if (munmap(first + 4 * PAGE, 2 * PAGE) != 0)
        return 1;
    must(mmap(first + 4 * PAGE, 2 * PAGE, PROT_READ | PROT_WRITE, MAP_PRIVATE | MAP_ANONYMOUS | MAP_FIXED, -1, 0), "hole");
    strcpy(first + 4 * PAGE + 8, "in the hole");
    strcpy(first + 6 * PAGE + 8, "behind the hole");
    strcpy(first + 3 * PAGE + 50, "before the hole");
    must(mmap(first + PAGE, PAGE, PROT_READ | PROT_WRITE, MAP_SHARED | MAP_FIXED, two, PAGE), "over it");
    strcpy(first + PAGE + 60, "of the second pool, in the middle of the first one");
    must(mmap(first + 7 * PAGE, PAGE, PROT_READ | PROT_WRITE, MAP_SHARED_VALIDATE | MAP_FIXED, one, 13 * PAGE), "validated");
    strcpy(first + 7 * PAGE, "the 14th page");
    munmap(later, 4 * PAGE);
    close(two);
    int segment = shmget(IPC_PRIVATE, 4 * PAGE, 0600);
    char *reused = must(shmat(segment, later, 0), "shmat");
    shmctl(segment, IPC_RMID, NULL);
    strcpy(reused, "no pool any more");
    return 0;
}
