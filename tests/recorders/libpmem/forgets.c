/* forgets POOL: of three plain stores the second is not made persistent before the third, nor ever. */
#include <libpmem.h>

#include <stdio.h>

int main(int argc, char **argv) {
    size_t length;
    char *pool = argc == 2 ? (char *)pmem_map_file(argv[1], 4096, PMEM_FILE_CREATE, 0666, &length, NULL) : NULL;
    if (pool == NULL) {
        fprintf(stderr, "%s\n", pmem_errormsg());
        return 1;
    }
    pool[0] = 1;
    pmem_persist(pool, 1);
    pool[64] = 2;
    pool[128] = 3;
    pmem_persist(pool + 128, 1);
    return pmem_unmap(pool, length);
}
