/* pools FOLDER: several files, a second mapping, mapping again, a file that grows and one without a name. The trace is in
 * ../libpmem_traces.py. */
#include <libpmem.h>

#include <stdio.h>
#include <stdlib.h>

#define CHECK(right) \
    if (!(right)) { \
        fprintf(stderr, "%s:%d: %s\n", __FILE__, __LINE__, pmem_errormsg()); \
        exit(1); \
    }

static const char *folder;

static char *map(const char *name, size_t length, int flags) {
    char path[4096];
    size_t mapped;
    int is_pmem;
    snprintf(path, sizeof path, "%s/%s", folder, name);
    char *pool = (char *)pmem_map_file(path, length, flags, 0666, &mapped, &is_pmem);
    CHECK(pool != NULL && is_pmem && (length == 0 || mapped == length));
    return pool;
}

int main(int argc, char **argv) {
    CHECK(argc == 2);
    folder = argv[1];
    char *one = map("one", 4096, PMEM_FILE_CREATE), *two = map("two", 4096, PMEM_FILE_CREATE);
    pmem_memset_persist(one, 1, 8);
    pmem_memset_persist(two + 64, 2, 8);
    two[0] = 3;
    CHECK(pmem_unmap(two, 4096) == 0);
    two = map("two", 0, 0);
    pmem_persist(two, 1);
    char *again = map("one", 0, 0);
    again[8] = 4;
    pmem_persist(one + 8, 1);
    pmem_memset_persist(again + 128, 5, 8);
    CHECK(pmem_unmap(one, 4096) == 0);
    again[16] = 6;
    pmem_persist(again + 16, 1);
    char *grown = map("one", 8192, PMEM_FILE_CREATE);
    pmem_memset_persist(grown + 4096, 7, 8);
    CHECK(pmem_is_pmem(again, 4096) && pmem_is_pmem(grown, 8192));
    char *nameless = map("", 4096, PMEM_FILE_CREATE | PMEM_FILE_TMPFILE);
    pmem_memset_persist(nameless, 8, 8);
    two[1] = 9;
    return 0;
}
