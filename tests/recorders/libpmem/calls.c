/* calls POOL: each call of libpmem.h, whose trace ../libpmem_traces.py writes out. */
#include <libpmem.h>

#include <errno.h>
#include <stdio.h>
#include <stdlib.h>
#include <string.h>

#define CHECK(right) \
    if (!(right)) { \
        fprintf(stderr, "%s:%d: %s\n", __FILE__, __LINE__, pmem_errormsg()); \
        exit(1); \
    }

static const char text[] = "ABCDEFGHIJKLMNOP";

static void flushes(char *pool) {
    pool[0] = 'p';
    pmem_persist(pool, 1);
    pmem_flush(pool + 60, 8);
    pmem_drain();
    pmem_deep_flush(pool + 64, 1);
    CHECK(pmem_deep_drain(pool + 64, 1) == 0);
    CHECK(pmem_deep_persist(pool + 128, 64) == 0);
    CHECK(pmem_deep_persist(pool, 0) == 0 && pmem_deep_drain(pool, 0) == 0);
    pmem_persist(pool, 0);
    pool[4096 + 700] = 'm';
    CHECK(pmem_msync(pool + 4096 + 100, 8) == 0);
    CHECK(pmem_msync(pool, 0) == 0);
}

static void copies(char *pool) {
    CHECK(pmem_memcpy(pool + 256, text, 9, 0) == pool + 256);
    CHECK(pmem_memmove(pool + 258, pool + 256, 4, PMEM_F_MEM_NODRAIN) == pool + 258);
    CHECK(pmem_memset(pool + 320, 1, 8, PMEM_F_MEM_NOFLUSH) == pool + 320);
    CHECK(pmem_memcpy_persist(pool + 384, text, 8) == pool + 384);
    CHECK(pmem_memmove_persist(pool + 448, text, 8) == pool + 448);
    CHECK(pmem_memset_persist(pool + 512, 2, 8) == pool + 512);
    CHECK(pmem_memcpy_nodrain(pool + 576, text, 8) == pool + 576);
    CHECK(pmem_memmove_nodrain(pool + 640, text, 8) == pool + 640);
    CHECK(pmem_memset_nodrain(pool + 704, 3, 8) == pool + 704);
    CHECK(pmem_memcpy(pool + 768, text, 8, PMEM_F_MEM_NONTEMPORAL) == pool + 768);
    CHECK(pmem_memset(pool + 832, 4, 8, PMEM_F_MEM_WC | PMEM_F_MEM_NODRAIN) == pool + 832);
    CHECK(pmem_memset(pool + 1024, 5, 255, 0) == pool + 1024);
    CHECK(pmem_memset(pool + 1280, 6, 256, 0) == pool + 1280);
    CHECK(pmem_memset(pool + 1536, 7, 256, PMEM_F_MEM_TEMPORAL) == pool + 1536);
    CHECK(pmem_memset(pool + 1792, 8, 256, PMEM_F_MEM_WB | PMEM_F_MEM_NODRAIN) == pool + 1792);
    CHECK(pmem_memcpy(pool, text, 0, 0) == pool);
    CHECK(pmem_memset(pool, 9, 0, PMEM_F_MEM_NONTEMPORAL) == pool);
}

int main(int argc, char **argv) {
    size_t length = 0;
    int is_pmem = 0;
    CHECK(argc == 2 && pmem_check_version(PMEM_MAJOR_VERSION, PMEM_MINOR_VERSION) == NULL);
    CHECK(strcmp(pmem_errormsg(), "") == 0 && pmem_map_file(argv[1], 0, 0, 0, NULL, NULL) == NULL && errno == ENOENT);
    CHECK(strstr(pmem_errormsg(), argv[1]) != NULL && PMEM_F_MEM_VALID_FLAGS == 63 && PMEM_MIN_PART == 2097152);
    char *pool = (char *)pmem_map_file(argv[1], 16000, PMEM_FILE_CREATE | PMEM_FILE_EXCL, 0600, &length, &is_pmem);
    CHECK(pool != NULL && length == 16000 && is_pmem == 1);
    CHECK(pmem_is_pmem(pool, 16000) == 1 && pmem_is_pmem(pool + 15999, 2) == 0 && pmem_is_pmem(text, 1) == 0);
    CHECK(pmem_has_auto_flush() == 0 && pmem_has_hw_drain() == 0);
    flushes(pool);
    copies(pool);
    pool[15999] = 'e';
    CHECK(pmem_msync(pool + 15999, 1) == 0);
    pool[192] = 'u';
    CHECK(pmem_unmap(pool, length) == 0 && pmem_is_pmem(pool, 1) == 0);
    return 0;
}
