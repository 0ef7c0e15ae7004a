/* reopens POOL: a pool of libpmemobj is closed and opened again by one process. libpmemobj locks the file while it is open. */
#include <libpmemobj.h>
#include <stdio.h>

int main(int argc, char **argv) {
    if (argc != 2)
        return 2;
    PMEMobjpool *pool = pmemobj_create(argv[1], "reopens", PMEMOBJ_MIN_POOL, 0666);
    if (pool == NULL)
        return 1;
    pmemobj_close(pool);
    pool = pmemobj_open(argv[1], "reopens");
    if (pool == NULL) {
        perror("open again");
        return 1;
    }
    pmemobj_close(pool);
    puts("opened again");
    return 0;
}
