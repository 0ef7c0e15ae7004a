/* calls2 FOLDER: the recorded calls of libpmem2.h, whose trace ../libpmem_traces.py writes out. */
#include <libpmem2.h>

#include <fcntl.h>
#include <stdio.h>
#include <stdlib.h>
#include <sys/mman.h>
#include <unistd.h>

#define CHECK(right) \
    if (!(right)) { \
        fprintf(stderr, "%s:%d: %s\n", __FILE__, __LINE__, pmem2_errormsg()); \
        exit(1); \
    }

enum { PAGE = 4096 };

static const char text[] = "ABCDEFGHIJKLMNOP";

static struct pmem2_source *open_source(const char *name, off_t size) {
    struct pmem2_source *source;
    int file = open(name, O_RDWR | O_CREAT, 0666);
    CHECK(file >= 0 && ftruncate(file, size) == 0 && pmem2_source_from_fd(&source, file) == 0);
    return source;
}

static struct pmem2_map *map(const struct pmem2_source *source, enum pmem2_sharing_type sharing, size_t offset, size_t length) {
    struct pmem2_config *config;
    struct pmem2_map *made;
    CHECK(pmem2_config_new(&config) == 0);
    CHECK(pmem2_config_set_required_store_granularity(config, PMEM2_GRANULARITY_PAGE) == 0);
    CHECK(pmem2_config_set_sharing(config, sharing) == 0);
    CHECK(pmem2_config_set_offset(config, offset) == 0 && pmem2_config_set_length(config, length) == 0);
    CHECK(pmem2_map_new(&made, config, source) == 0 && pmem2_config_delete(&config) == 0);
    return made;
}

static void lines(struct pmem2_map *lines) {
    char *pool = (char *)pmem2_map_get_address(lines);
    pmem2_memmove_fn move = pmem2_get_memmove_fn(lines);
    CHECK(pmem2_map_get_store_granularity(lines) == PMEM2_GRANULARITY_CACHE_LINE);
    pool[0] = 'p';
    pmem2_get_persist_fn(lines)(pool, 1);
    pmem2_get_flush_fn(lines)(pool + 60, 8);
    pmem2_get_drain_fn(lines)();
    CHECK(move(pool + 256, text, 9, 0) == pool + 256);
    CHECK(pmem2_get_memcpy_fn(lines)(pool + 320, text, 8, PMEM2_F_MEM_NODRAIN) == pool + 320);
    CHECK(pmem2_get_memset_fn(lines)(pool + 384, 1, 8, PMEM2_F_MEM_NOFLUSH) == pool + 384);
    CHECK(move(pool + 448, text, 8, PMEM2_F_MEM_NONTEMPORAL) == pool + 448);
    CHECK(pmem2_deep_flush(lines, pool + 384, 8) == 0);
}

static void pages(struct pmem2_map *pages) {
    char *pool = (char *)pmem2_map_get_address(pages);
    CHECK(pmem2_map_get_store_granularity(pages) == PMEM2_GRANULARITY_PAGE);
    pool[0] = 'q';
    pmem2_get_persist_fn(pages)(pool, 1);
    pmem2_get_drain_fn(pages)();
    pmem2_get_flush_fn(pages)(pool, 1);
    pmem2_get_memcpy_fn(pages)(pool + 64, text, 8, PMEM2_F_MEM_NODRAIN);
    pmem2_get_memset_fn(pages)(pool + 128, 2, 8, PMEM2_F_MEM_NOFLUSH);
}

static void bytes(struct pmem2_map *bytes) {
    char *memory = (char *)pmem2_map_get_address(bytes);
    CHECK(pmem2_map_get_store_granularity(bytes) == PMEM2_GRANULARITY_BYTE);
    memory[0] = 'r';
    pmem2_get_persist_fn(bytes)(memory, 1);
    pmem2_get_flush_fn(bytes)(memory, 1);
    pmem2_get_drain_fn(bytes)();
    pmem2_get_memcpy_fn(bytes)(memory + 64, text, 8, 0);
    pmem2_get_memset_fn(bytes)(memory + 128, 3, 8, PMEM2_F_MEM_NODRAIN);
}

/* A private mapping of the program's own. */
static void copied(struct pmem2_source *source) {
    struct pmem2_map *map;
    int file;
    CHECK(pmem2_source_get_fd(source, &file) == 0);
    char *own = (char *)mmap(NULL, PAGE, PROT_READ | PROT_WRITE, MAP_PRIVATE, file, 0);
    CHECK(pmem2_map_from_existing(&map, source, own, PAGE, PMEM2_GRANULARITY_CACHE_LINE) == 0);
    pmem2_get_memset_fn(map)(own, 6, 8, 0);
    CHECK(pmem2_map_delete(&map) == 0 && pmem2_source_delete(&source) == 0 && munmap(own, PAGE) == 0);
}

/* Two files side by side, and one copy over both. */
static void adjacent(void) {
    struct pmem2_vm_reservation *reservation;
    struct pmem2_config *config;
    struct pmem2_map *maps[2];
    CHECK(pmem2_vm_reservation_new(&reservation, NULL, 2 * PAGE) == 0 && pmem2_config_new(&config) == 0);
    pmem2_config_set_required_store_granularity(config, PMEM2_GRANULARITY_CACHE_LINE);
    for (int at = 0; at < 2; at++) {
        struct pmem2_source *source = open_source(at == 0 ? "left" : "right", PAGE);
        pmem2_config_set_vm_reservation(config, reservation, (size_t)at * PAGE);
        CHECK(pmem2_map_new(&maps[at], config, source) == 0 && pmem2_source_delete(&source) == 0);
    }
    char *left = (char *)pmem2_map_get_address(maps[0]);
    CHECK(pmem2_get_memset_fn(maps[0])(left + PAGE - 8, 4, 16, 0) == left + PAGE - 8);
    CHECK(pmem2_map_delete(&maps[0]) == 0 && pmem2_map_delete(&maps[1]) == 0);
    CHECK(pmem2_vm_reservation_delete(&reservation) == 0 && pmem2_config_delete(&config) == 0);
}

int main(int argc, char **argv) {
    CHECK(argc == 2 && chdir(argv[1]) == 0);
    struct pmem2_source *source = open_source("one", 2 * PAGE), *anonymous;
    struct pmem2_map *first = map(source, PMEM2_SHARED, 0, PAGE), *second = map(source, PMEM2_SHARED, PAGE, PAGE);
    lines(first);
    pmem2_get_memset_fn(second)(pmem2_map_get_address(second), 5, 8, 0);
    char letter = 'W';
    CHECK(pmem2_source_pwrite_mcsafe(source, &letter, 1, PAGE + 64) == 0);
    CHECK(pmem2_source_pwrite_mcsafe(source, &letter, 1, 2 * PAGE) == PMEM2_E_LENGTH_OUT_OF_RANGE);
    CHECK(pmem2_map_delete(&first) == 0 && pmem2_map_delete(&second) == 0);
    struct pmem2_map *private_map = map(source, PMEM2_PRIVATE, 0, 0);
    bytes(private_map);
    CHECK(pmem2_map_delete(&private_map) == 0);
    CHECK(pmem2_source_from_anon(&anonymous, PAGE) == 0);
    struct pmem2_map *memory = map(anonymous, PMEM2_SHARED, 0, 0);
    bytes(memory);
    CHECK(pmem2_map_delete(&memory) == 0 && pmem2_source_delete(&anonymous) == 0);
    char *own = (char *)mmap(NULL, PAGE, PROT_READ | PROT_WRITE, MAP_SHARED, open("own", O_RDWR | O_CREAT, 0666), 0);
    struct pmem2_source *owned = open_source("own", PAGE);
    CHECK(pmem2_map_from_existing(&first, owned, own, PAGE, PMEM2_GRANULARITY_PAGE) == 0);
    pages(first);
    CHECK(pmem2_map_delete(&first) == 0 && pmem2_source_delete(&source) == 0);
    own[0] = 's';
    copied(owned);
    adjacent();
    return 0;
}
