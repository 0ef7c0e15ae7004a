#include "mapped.h"
#include "pmem2.h"
#include "pools.h"
#include "where.h"

#include <errno.h>
#include <limits.h>
#include <stdint.h>
#include <stdio.h>
#include <stdlib.h>
#include <string.h>
#include <strings.h>
#include <sys/mman.h>
#include <unistd.h>

static bool is_persistent(const struct pmem2_config *config, const struct pmem2_source *source) {
    return config->sharing == PMEM2_SHARED && source->file >= 0;
}

/* --- what is asked for --- */

/* The granularity of the mapping; the environment may force that of persistent memory. */
static int granularity_of(bool persistent) {
    static const char *const names[] = {"BYTE", "CACHE_LINE", "PAGE"};
    const char *forced = getenv("PMEM2_FORCE_GRANULARITY");
    if (!persistent)
        return PMEM2_GRANULARITY_BYTE;
    for (int number = PMEM2_GRANULARITY_BYTE; forced != NULL && number <= PMEM2_GRANULARITY_PAGE; number++)
        if (strcasecmp(forced, names[number]) == 0)
            return number;
    return PMEM2_GRANULARITY_CACHE_LINE;
}

static int check_granularity(const struct pmem2_config *config, bool persistent, enum pmem2_granularity *granularity) {
    int number = granularity_of(persistent);
    if (config->granularity < 0)
        return pmtrace_fail(PMEM2_E_GRANULARITY_NOT_SET, "the required store granularity was not set");
    if (persistent && number == PMEM2_GRANULARITY_BYTE)
        return pmtrace_fail(PMEM2_E_GRANULARITY_NOT_SUPPORTED, "no recorded memory has the granularity of bytes (eADR)");
    if (number > config->granularity)
        return pmtrace_fail(PMEM2_E_GRANULARITY_NOT_SUPPORTED, "the granularity is greater than the required one");
    *granularity = (enum pmem2_granularity)number;
    return 0;
}

/* The range of the source that the configuration names. */
static int range_of(const struct pmem2_config *config, const struct pmem2_source *source, size_t *offset, size_t *length) {
    size_t size = 0;
    int error = pmem2_source_size(source, &size);
    if (error != 0)
        return error;
    *offset = source->file < 0 ? 0 : config->offset;
    if (size == 0)
        return pmtrace_fail(PMEM2_E_SOURCE_EMPTY, "the source has no byte");
    if (!pmtrace_whole_pages(*offset))
        return pmtrace_fail(PMEM2_E_OFFSET_UNALIGNED, "offset %zu is not of whole pages", *offset);
    if (!pmtrace_whole_pages(config->length))
        return pmtrace_fail(PMEM2_E_LENGTH_UNALIGNED, "length %zu is not of whole pages", config->length);
    if (*offset >= size || config->length > size - *offset)
        return pmtrace_fail(PMEM2_E_MAP_RANGE, "%zu bytes at %zu are not all in a source of %zu", config->length, *offset, size);
    *length = config->length > 0 ? config->length : size - *offset;
    return 0;
}

/* --- mapping --- */

static int protection_of(const struct pmem2_config *config) {
    int protection = PROT_NONE;
    if (config->protection & (PMEM2_PROT_READ | PMEM2_PROT_WRITE))
        protection |= PROT_READ; /* with x86 what can be written can be read */
    if (config->protection & PMEM2_PROT_WRITE)
        protection |= PROT_WRITE;
    return config->protection & PMEM2_PROT_EXEC ? protection | PROT_EXEC : protection;
}

/* Adds a mapping that the system has just made. One that was there before was unmapped without pmem2_map_delete. */
static void add_new(struct pmem2_map *map) {
    const struct pmem2_map *stale;
    while ((stale = pmtrace_maps_first_in(map->address, map->reserved)) != NULL)
        (void)pmtrace_maps_remove(stale);
    (void)pmtrace_maps_add(map);
}

/* Maps the source for `map`, whose lengths are known. The lock is held. */
static int map_source(struct pmem2_map *map, const struct pmem2_config *config, const struct pmem2_source *source,
                      size_t offset) {
    int flags = (config->sharing == PMEM2_SHARED ? MAP_SHARED : MAP_PRIVATE) | (source->file < 0 ? MAP_ANONYMOUS : 0);
    char *place = NULL;
    map->reservation = config->reservation;
    if (map->reservation != NULL) {
        int error = pmtrace_reservation_place(map->reservation, config->reservation_offset, map->reserved, &place);
        if (error != 0)
            return error;
        flags |= MAP_FIXED;
    }
    void *address = mmap(place, map->length, protection_of(config), flags, source->file, (off_t)offset);
    if (address == MAP_FAILED && errno == EACCES)
        return pmtrace_fail(PMEM2_E_NO_ACCESS, "the file was not opened for this protection");
    if (address == MAP_FAILED)
        return pmtrace_fail_by_errno("mmap");
    map->address = address;
    add_new(map);
    return 0;
}

/* Unmaps it; in a reservation its addresses stay reserved. The lock is held. */
static int unmap(const struct pmem2_map *map) {
    int flags = MAP_PRIVATE | MAP_ANONYMOUS | MAP_NORESERVE | MAP_FIXED;
    if (map->reservation == NULL)
        return munmap(map->address, map->length) == 0 ? 0 : pmtrace_fail_by_errno("munmap");
    return mmap(map->address, map->reserved, PROT_NONE, flags, -1, 0) != MAP_FAILED ? 0 : pmtrace_fail_by_errno("mmap");
}

/* --- recording --- */

/* The name of an open file; of one without a name "tmpfile" in its directory. */
static void name_of(int file, char *name, size_t size) {
    static const char deleted[] = " (deleted)";
    char link[32];
    snprintf(link, sizeof link, "/proc/self/fd/%d", file);
    ssize_t length = readlink(link, name, size - sizeof "tmpfile");
    name[length > 0 ? length : 0] = '\0';
    char *base = strrchr(name, '/'), *end = name + strlen(name);
    if (base == NULL)
        strcpy(name, "tmpfile");
    else if ((size_t)(end - base) > sizeof deleted && strcmp(end - sizeof deleted + 1, deleted) == 0)
        strcpy(base + 1, "tmpfile");
}

static void record(const char *label, const struct pmem2_map *map, int file) {
    char name[PATH_MAX + sizeof "tmpfile"];
    name_of(file, name, sizeof name);
    pmtrace_begin_pool(label, map->address, map->length, name);
}

/* Records a new mapping, where it is of persistent memory. */
static void record_new(const char *label, const struct pmem2_map *map, const struct pmem2_config *config,
                       const struct pmem2_source *source) {
    if (!is_persistent(config, source))
        pmtrace_leave_out(map->address, map->reserved, source->file < 0 ? "anonymous" : "mapped privately");
    else if (!(config->protection & (PMEM2_PROT_READ | PMEM2_PROT_WRITE)))
        pmtrace_leave_out(map->address, map->reserved, "mapped without access");
    else
        record(label, map, source->file);
}

static void note_sharing(void *all_shared, const struct pmtrace_mapped *mapped) {
    *(bool *)all_shared = *(bool *)all_shared && mapped->shared;
}

/* Records a mapping of the program's own, where it is a shared one of a file. */
static void record_existing(const char *label, const struct pmem2_map *map, const struct pmem2_source *source) {
    bool shared = source->file >= 0;
    if (pmtrace_look_at_mapped(map->address, map->length, note_sharing, &shared) && shared)
        record(label, map, source->file);
    else
        pmtrace_leave_out(map->address, map->reserved, "not a shared mapping of a file");
}

/* --- the calls --- */

static size_t in_pages(size_t length) {
    size_t page = pmtrace_page_size();
    return (length + page - 1) / page * page;
}

int pmem2_map_new(struct pmem2_map **map, const struct pmem2_config *config, const struct pmem2_source *source) {
    const char *label = PMTRACE_CALLER;
    size_t offset = 0, length = 0;
    struct pmem2_map *made = NULL;
    enum pmem2_granularity granularity = PMEM2_GRANULARITY_CACHE_LINE;
    *map = NULL;
    int error = check_granularity(config, is_persistent(config, source), &granularity);
    if (error == 0)
        error = range_of(config, source, &offset, &length);
    if (error == 0)
        error = pmtrace_new((void **)&made, sizeof *made);
    if (error != 0)
        return error;
    made->length = length;
    made->reserved = in_pages(length);
    made->granularity = granularity;
    made->anonymous = source->file < 0;
    pmtrace_maps_lock();
    error = map_source(made, config, source, offset);
    pmtrace_maps_unlock();
    if (error != 0) {
        free(made);
        return error;
    }
    record_new(label, made, config, source);
    *map = made;
    return 0;
}

int pmem2_map_from_existing(struct pmem2_map **map, const struct pmem2_source *source, void *address, size_t length,
                            enum pmem2_granularity granularity) {
    struct pmem2_map *made;
    *map = NULL;
    int error = pmtrace_new((void **)&made, sizeof *made);
    if (error != 0)
        return error;
    *made = (struct pmem2_map){.address = address, .length = length, .reserved = in_pages(length), .granularity = granularity};
    made->existing = true;
    pmtrace_maps_lock();
    bool added = pmtrace_maps_add(made);
    pmtrace_maps_unlock();
    if (!added) {
        free(made);
        return pmtrace_fail(PMEM2_E_MAP_EXISTS, "%zu bytes at %p are mapped already", length, address);
    }
    record_existing(PMTRACE_CALLER, made, source);
    *map = made;
    return 0;
}

/* Whether there is such a mapping. */
static bool is_known(const struct pmem2_map *map) {
    pmtrace_maps_lock();
    bool known = pmtrace_maps_has(map);
    pmtrace_maps_unlock();
    return known;
}

int pmem2_map_delete(struct pmem2_map **map) {
    struct pmem2_map *old = *map;
    if (!is_known(old))
        return pmtrace_fail(PMEM2_E_MAPPING_NOT_FOUND, "there is no such mapping");
    pmtrace_end_pool(PMTRACE_CALLER, old->address, old->length);
    pmtrace_maps_lock();
    int error = old->existing ? 0 : unmap(old);
    if (error == 0)
        (void)pmtrace_maps_remove(old);
    pmtrace_maps_unlock();
    if (error == 0) {
        free(old);
        *map = NULL;
    }
    return error;
}

void *pmem2_map_get_address(struct pmem2_map *map) {
    return map->address;
}

size_t pmem2_map_get_size(struct pmem2_map *map) {
    return map->length;
}

enum pmem2_granularity pmem2_map_get_store_granularity(struct pmem2_map *map) {
    return map->granularity;
}
