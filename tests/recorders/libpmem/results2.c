/* results2 FOLDER: what calls of libpmem2.h answer, one a line. libpmem2 itself and the library that records answer the same. */
#include <libpmem2.h>

#include <errno.h>
#include <fcntl.h>
#include <stdio.h>
#include <stdlib.h>
#include <string.h>
#include <sys/mman.h>
#include <unistd.h>

enum { PAGE = 4096 };

static void show(const char *what, int answer) {
    printf("%s: %d, there is a message: %d\n", what, answer, answer == 0 || pmem2_errormsg()[0] != 0);
}

static int file_of(const char *name, off_t length, int flags) {
    int file = open(name, O_RDWR | O_CREAT, 0666);
    if (file < 0 || ftruncate(file, length) != 0)
        exit(1);
    close(file);
    return open(name, flags);
}

static void sources(void) {
    struct pmem2_source *source = NULL;
    size_t size = 77, alignment = 77;
    int file = 77, ends[2];
    uint64_t count = 77;
    char bytes[8] = "1234567";
    show("source of a closed file", pmem2_source_from_fd(&source, 999));
    show("source of no file", pmem2_source_from_fd(&source, -1));
    show("source of a directory", pmem2_source_from_fd(&source, open(".", O_RDONLY)));
    show("source of a pipe", pmem2_source_from_fd(&source, pipe(ends) == 0 ? ends[0] : -1));
    show("source of a device", pmem2_source_from_fd(&source, open("/dev/zero", O_RDWR)));
    show("source of a file for writing", pmem2_source_from_fd(&source, file_of("some", 6000, O_WRONLY)));
    show("source of a file", pmem2_source_from_fd(&source, file_of("some", 6000, O_RDWR)));
    show("its size", pmem2_source_size(source, &size));
    show("its alignment", pmem2_source_alignment(source, &alignment));
    show("its file", pmem2_source_get_fd(source, &file));
    printf("%zu %zu %d\n", size, alignment, file > 2);
    show("write to it", pmem2_source_pwrite_mcsafe(source, bytes, 8, 5992));
    show("read of it", pmem2_source_pread_mcsafe(source, bytes, 4, 5996));
    show("read behind it", pmem2_source_pread_mcsafe(source, bytes, 4, 5997));
    printf("%.8s\n", bytes);
    show("its node", pmem2_source_numa_node(source, &file) != 0 ? -1 : -1);
    show("deletion", pmem2_source_delete(&source));
    show("deletion of none", source == NULL ? pmem2_source_delete(&source) : -1);
    show("an anonymous source", pmem2_source_from_anon(&source, 5000));
    show("its size", pmem2_source_size(source, &size));
    show("its alignment", pmem2_source_alignment(source, &alignment));
    show("its file", pmem2_source_get_fd(source, &file));
    show("read of it", pmem2_source_pread_mcsafe(source, bytes, 4, 0));
    show("write to it", pmem2_source_pwrite_mcsafe(source, bytes, 4, 0));
    show("its unsafe shutdowns", pmem2_source_device_usc(source, &count));
    printf("%zu %zu\n", size, alignment);
    pmem2_source_delete(&source);
}

static void configs(void) {
    struct pmem2_config *config;
    show("config", pmem2_config_new(&config));
    for (int number = -1; number < 5; number++)
        show("granularity", pmem2_config_set_required_store_granularity(config, (enum pmem2_granularity)number));
    for (int number = -1; number < 4; number++)
        show("sharing", pmem2_config_set_sharing(config, (enum pmem2_sharing_type)number));
    show("offset", pmem2_config_set_offset(config, 12345));
    show("a great offset", pmem2_config_set_offset(config, (size_t)1 << 63));
    show("length", pmem2_config_set_length(config, SIZE_MAX));
    show("protection", pmem2_config_set_protection(config, PMEM2_PROT_READ | PMEM2_PROT_WRITE | PMEM2_PROT_EXEC));
    show("no protection", pmem2_config_set_protection(config, PMEM2_PROT_NONE));
    show("a protection that there is not", pmem2_config_set_protection(config, PROT_READ));
    show("reservation", pmem2_config_set_vm_reservation(config, NULL, 0));
    show("deletion", pmem2_config_delete(&config));
    printf("%d\n", config == NULL);
}

/* What a mapping is asked for: -1 where it isn't. */
struct request {
    const char *what;
    off_t size; /* of the file; -1: an anonymous source of three pages */
    int mode;   /* in which the file is opened */
    int granularity, sharing;
    long offset, length;
    long protection;
};

static void map(const struct request *request) {
    struct pmem2_config *config;
    struct pmem2_source *source;
    struct pmem2_map *map = (struct pmem2_map *)1;
    pmem2_config_new(&config);
    if (request->granularity >= 0)
        pmem2_config_set_required_store_granularity(config, (enum pmem2_granularity)request->granularity);
    if (request->sharing >= 0)
        pmem2_config_set_sharing(config, (enum pmem2_sharing_type)request->sharing);
    if (request->offset >= 0)
        pmem2_config_set_offset(config, (size_t)request->offset);
    if (request->length >= 0)
        pmem2_config_set_length(config, (size_t)request->length);
    if (request->protection >= 0)
        pmem2_config_set_protection(config, (unsigned)request->protection);
    int file = request->size >= 0 ? file_of("mapped", request->size, request->mode) : -1;
    if ((file >= 0 ? pmem2_source_from_fd(&source, file) : pmem2_source_from_anon(&source, 3 * PAGE)) != 0)
        exit(1);
    int answer = pmem2_map_new(&map, config, source);
    show(request->what, answer);
    if (answer == 0) {
        char *start = (char *)pmem2_map_get_address(map);
        printf("%zu bytes, granularity %d, ", pmem2_map_get_size(map), (int)pmem2_map_get_store_granularity(map));
        printf("one function for two: %d, ", (void *)pmem2_get_memmove_fn(map) == (void *)pmem2_get_memcpy_fn(map));
        if (request->protection != PMEM2_PROT_NONE && request->protection != PMEM2_PROT_READ)
            printf("first bytes %s, ", (char *)pmem2_get_memcpy_fn(map)(start, "abc", 4, 0));
        printf("deep flush %d %d\n", pmem2_deep_flush(map, start, 4), pmem2_deep_flush(map, start + 1, pmem2_map_get_size(map)));
        show("deletion", pmem2_map_delete(&map));
    }
    printf("%d\n", map == NULL);
    pmem2_source_delete(&source);
    pmem2_config_delete(&config);
    close(file);
}

static void maps(void) {
    static const struct request requests[] = {
        {"the whole file", 6000, O_RDWR, PMEM2_GRANULARITY_PAGE, -1, -1, -1, -1},
        {"granularity of lines", 6000, O_RDWR, PMEM2_GRANULARITY_CACHE_LINE, PMEM2_SHARED, -1, -1, -1},
        {"granularity of bytes", 6000, O_RDWR, PMEM2_GRANULARITY_BYTE, -1, -1, -1, -1},
        {"no granularity", 6000, O_RDWR, -1, -1, -1, -1, -1},
        {"an empty file", 0, O_RDWR, PMEM2_GRANULARITY_PAGE, -1, -1, -1, -1},
        {"a page of it", 3 * PAGE, O_RDWR, PMEM2_GRANULARITY_PAGE, -1, PAGE, PAGE, -1},
        {"from an offset on", 3 * PAGE, O_RDWR, PMEM2_GRANULARITY_PAGE, -1, PAGE, -1, -1},
        {"a half page", 3 * PAGE, O_RDWR, PMEM2_GRANULARITY_PAGE, -1, -1, PAGE / 2, -1},
        {"from a half page on", 3 * PAGE, O_RDWR, PMEM2_GRANULARITY_PAGE, -1, PAGE / 2, PAGE, -1},
        {"behind the file", 3 * PAGE, O_RDWR, PMEM2_GRANULARITY_PAGE, -1, 3 * PAGE, PAGE, -1},
        {"far behind the file", 3 * PAGE, O_RDWR, PMEM2_GRANULARITY_PAGE, -1, 9 * PAGE, -1, -1},
        {"too long", 3 * PAGE, O_RDWR, PMEM2_GRANULARITY_PAGE, -1, PAGE, 3 * PAGE, -1},
        {"read only", 6000, O_RDONLY, PMEM2_GRANULARITY_PAGE, -1, -1, -1, -1},
        {"read only, to be read", 6000, O_RDONLY, PMEM2_GRANULARITY_PAGE, -1, -1, -1, PMEM2_PROT_READ},
        {"without access", 6000, O_RDWR, PMEM2_GRANULARITY_PAGE, -1, -1, -1, PMEM2_PROT_NONE},
        {"to be written", 6000, O_RDWR, PMEM2_GRANULARITY_PAGE, -1, -1, -1, PMEM2_PROT_WRITE},
        {"private", 6000, O_RDWR, PMEM2_GRANULARITY_PAGE, PMEM2_PRIVATE, -1, -1, -1},
        {"private, of what is read only", 6000, O_RDONLY, PMEM2_GRANULARITY_PAGE, PMEM2_PRIVATE, -1, -1, -1},
        {"anonymous", -1, 0, PMEM2_GRANULARITY_PAGE, -1, -1, -1, -1},
        {"a part of an anonymous source", -1, 0, PMEM2_GRANULARITY_PAGE, PMEM2_PRIVATE, -1, PAGE, -1},
    };
    for (size_t at = 0; at < sizeof requests / sizeof *requests; at++)
        map(&requests[at]);
}

static struct pmem2_map *map_at(struct pmem2_vm_reservation *reservation, size_t offset, const char *name, const char *what) {
    struct pmem2_config *config;
    struct pmem2_source *source;
    struct pmem2_map *map = NULL;
    pmem2_config_new(&config);
    pmem2_config_set_required_store_granularity(config, PMEM2_GRANULARITY_PAGE);
    pmem2_config_set_vm_reservation(config, reservation, offset);
    pmem2_source_from_fd(&source, file_of(name, 2 * PAGE, O_RDWR));
    show(what, pmem2_map_new(&map, config, source));
    pmem2_source_delete(&source);
    pmem2_config_delete(&config);
    return map;
}

static void show_found(const char *what, int answer, const struct pmem2_map *found, const struct pmem2_map *one,
                       const struct pmem2_map *two) {
    printf("%s: %d, %s\n", what, answer,
           found == NULL  ? "none"
           : found == one ? "the first"
           : found == two ? "the second"
                          : "another");
}

static void find(struct pmem2_vm_reservation *reservation, struct pmem2_map *one, struct pmem2_map *two) {
    struct pmem2_map *found;
    for (size_t offset = 0; offset < 10; offset++)
        for (size_t length = 1; length < 4; length++) {
            int answer = pmem2_vm_reservation_map_find(reservation, offset * PAGE, length * PAGE, &found);
            show_found("find", answer, found, one, two);
        }
    int answer = pmem2_vm_reservation_map_find_first(reservation, &found);
    show_found("find the first", answer, found, one, two);
    answer = pmem2_vm_reservation_map_find_last(reservation, &found);
    show_found("find the last", answer, found, one, two);
    answer = pmem2_vm_reservation_map_find_next(reservation, one, &found);
    show_found("find the one behind the first", answer, found, one, two);
    answer = pmem2_vm_reservation_map_find_next(reservation, two, &found);
    show_found("find the one behind the second", answer, found, one, two);
    answer = pmem2_vm_reservation_map_find_prev(reservation, two, &found);
    show_found("find the one before the second", answer, found, one, two);
    answer = pmem2_vm_reservation_map_find_prev(reservation, one, &found);
    show_found("find the one before the first", answer, found, one, two);
}

static void reservations(void) {
    struct pmem2_vm_reservation *reservation, *other;
    show("a reservation at half a page", pmem2_vm_reservation_new(&reservation, (void *)(PAGE / 2), PAGE));
    show("a reservation of half a page", pmem2_vm_reservation_new(&reservation, NULL, PAGE / 2));
    show("reservation", pmem2_vm_reservation_new(&reservation, NULL, 10 * PAGE));
    char *start = (char *)pmem2_vm_reservation_get_address(reservation);
    show("a reservation on it", pmem2_vm_reservation_new(&other, start + PAGE, PAGE));
    struct pmem2_map *two = map_at(reservation, 6 * PAGE, "two", "map the second");
    struct pmem2_map *one = map_at(reservation, 2 * PAGE, "one", "map the first");
    printf("%d %d\n", pmem2_map_get_address(one) == start + 2 * PAGE, pmem2_map_get_address(two) == start + 6 * PAGE);
    map_at(reservation, 3 * PAGE, "three", "map on the first");
    map_at(reservation, 9 * PAGE, "three", "map behind the end");
    find(reservation, one, two);
    show("deletion", pmem2_vm_reservation_delete(&reservation));
    show("shrink of a half page", pmem2_vm_reservation_shrink(reservation, 0, PAGE / 2));
    show("shrink from a half page on", pmem2_vm_reservation_shrink(reservation, PAGE / 2, PAGE));
    show("shrink behind the end", pmem2_vm_reservation_shrink(reservation, 10 * PAGE, PAGE));
    show("shrink by too much", pmem2_vm_reservation_shrink(reservation, 9 * PAGE, 2 * PAGE));
    show("shrink in the middle", pmem2_vm_reservation_shrink(reservation, 4 * PAGE, PAGE));
    show("shrink the whole", pmem2_vm_reservation_shrink(reservation, 0, 10 * PAGE));
    show("shrink what is mapped", pmem2_vm_reservation_shrink(reservation, 7 * PAGE, 3 * PAGE));
    show("shrink the end", pmem2_vm_reservation_shrink(reservation, 9 * PAGE, PAGE));
    show("shrink the beginning", pmem2_vm_reservation_shrink(reservation, 0, PAGE));
    printf("%zu bytes, one page on: %d\n", pmem2_vm_reservation_get_size(reservation),
           pmem2_vm_reservation_get_address(reservation) == start + PAGE);
    show("extension of a half page", pmem2_vm_reservation_extend(reservation, PAGE / 2));
    show("delete the first", pmem2_map_delete(&one));
    show("delete the second", pmem2_map_delete(&two));
    show("deletion", pmem2_vm_reservation_delete(&reservation));
    printf("%d %d\n", one == NULL && two == NULL, reservation == NULL);
}

static void existing(void) {
    struct pmem2_source *source;
    struct pmem2_map *map, *other;
    int file = file_of("existing", 2 * PAGE, O_RDWR);
    char *own = (char *)mmap(NULL, 2 * PAGE, PROT_READ | PROT_WRITE, MAP_SHARED, file, 0);
    pmem2_source_from_fd(&source, file);
    show("an existing mapping", pmem2_map_from_existing(&map, source, own, 2 * PAGE, PMEM2_GRANULARITY_CACHE_LINE));
    show("the same", pmem2_map_from_existing(&other, source, own, 2 * PAGE, PMEM2_GRANULARITY_CACHE_LINE));
    show("a part of it", pmem2_map_from_existing(&other, source, own + PAGE, PAGE, PMEM2_GRANULARITY_CACHE_LINE));
    printf("%d %zu %d\n", pmem2_map_get_address(map) == own, pmem2_map_get_size(map), (int)pmem2_map_get_store_granularity(map));
    pmem2_get_memset_fn(map)(own, 'x', 10, 0);
    show("deletion", pmem2_map_delete(&map));
    printf("%c\n", own[9]);
    pmem2_source_delete(&source);
    munmap(own, 2 * PAGE);
}

int main(int argc, char **argv) {
    if (argc != 2 || chdir(argv[1]) != 0)
        return 2;
    sources();
    configs();
    maps();
    reservations();
    existing();
    return 0;
}
