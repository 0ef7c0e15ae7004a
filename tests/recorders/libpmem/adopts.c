/* adopts FILE: a program that maps by itself, and asks pmem_is_pmem. */
#include <libpmem.h>

#include <fcntl.h>
#include <stdio.h>
#include <sys/mman.h>
#include <unistd.h>

int main(int argc, char **argv) {
    int file = argc == 2 ? open(argv[1], O_RDWR | O_CREAT, 0666) : -1;
    if (file < 0 || ftruncate(file, 8192) != 0)
        return 2;
    char *pool = (char *)mmap(NULL, 8192, PROT_READ | PROT_WRITE, MAP_SHARED, file, 0);
    char *copy = (char *)mmap(NULL, 8192, PROT_READ | PROT_WRITE, MAP_PRIVATE, file, 0);
    pool[0] = 1;                    /* before the library knows of it */
    (void)pmem_is_pmem(copy, 8192); /* which is no persistent memory, whatever it says */
    copy[0] = 4;
    int is_pmem = pmem_is_pmem(pool + 4096, 4096);
    pmem_memset_persist(pool + 4096, 2, 8);
    pool[4104] = 3;
    pmem_persist(pool + 4104, 1);
    printf("%d %d\n", is_pmem, pmem_is_pmem(pool + 4096, 4096));
    return pmem_unmap(pool, 8192);
}
