#include "pmem2.h"

#include <pthread.h>

static pthread_mutex_t lock = PTHREAD_MUTEX_INITIALIZER;
static struct pmem2_map *maps;

__attribute__((constructor)) static void prepare_for_fork(void) {
    pthread_atfork(pmtrace_maps_lock, pmtrace_maps_unlock, pmtrace_maps_unlock);
}

void pmtrace_maps_lock(void) {
    pthread_mutex_lock(&lock);
}

void pmtrace_maps_unlock(void) {
    pthread_mutex_unlock(&lock);
}

struct pmem2_map *pmtrace_maps_first_in(const char *start, size_t length) {
    struct pmem2_map *map = maps;
    while (map != NULL && map->address + map->reserved <= start)
        map = map->next;
    return map != NULL && map->address < start + length ? map : NULL;
}

bool pmtrace_maps_add(struct pmem2_map *map) {
    struct pmem2_map **link = &maps;
    if (pmtrace_maps_first_in(map->address, map->reserved) != NULL)
        return false;
    while (*link != NULL && (*link)->address < map->address)
        link = &(*link)->next;
    map->next = *link;
    *link = map;
    return true;
}

bool pmtrace_maps_has(const struct pmem2_map *map) {
    const struct pmem2_map *other = maps;
    while (other != NULL && other != map)
        other = other->next;
    return other != NULL;
}

bool pmtrace_maps_remove(const struct pmem2_map *map) {
    struct pmem2_map **link = &maps;
    while (*link != NULL && *link != map)
        link = &(*link)->next;
    if (*link == NULL)
        return false;
    *link = map->next;
    return true;
}
