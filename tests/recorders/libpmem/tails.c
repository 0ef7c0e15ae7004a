/* tails POOL: a function that ends by a call of the library, and is inlined where APART is nothing. */
#include <libpmem.h>

#include <stddef.h>

#ifndef APART
#define APART __attribute__((noinline))
#endif

APART static void save(char *place) {
    *place = 1;
    pmem_persist(place, 1); /* here it is called */
}

int main(int argc, char **argv) {
    size_t length;
    char *pool = argc == 2 ? (char *)pmem_map_file(argv[1], 4096, PMEM_FILE_CREATE, 0666, &length, NULL) : NULL;
    if (pool == NULL)
        return 1;
    save(pool); /* here its caller is */
    return pmem_unmap(pool, length);
}
