/* removed POOL: three files of one name, one after the other; the stores to two of them are not flushed. */
#include <libpmem.h>

#include <unistd.h>

int main(int argc, char **argv) {
    for (int turn = 1; argc == 2 && turn <= 3; turn++) {
        size_t length;
        char *pool = (char *)pmem_map_file(argv[1], 4096, PMEM_FILE_CREATE | PMEM_FILE_EXCL, 0666, &length, NULL);
        if (pool == NULL)
            return 1;
        pmem_memset(pool, turn, 8, turn < 3 ? PMEM_F_MEM_NOFLUSH : 0);
        if (pmem_unmap(pool, length) != 0 || unlink(argv[1]) != 0)
            return 1;
    }
    return 0;
}
