#define _GNU_SOURCE
#include "pmem2.h"

#include <errno.h>
#include <stdlib.h>
#include <sys/mman.h>

struct pmem2_vm_reservation {
    char *address;
    size_t size;
};

enum { EMPTY = MAP_PRIVATE | MAP_ANONYMOUS | MAP_NORESERVE };

/* Reserves the addresses; where `wanted` is not NULL, from there on and no others. Answers 0 or an error. */
static int reserve(char *wanted, size_t size, char **address) {
    void *got = mmap(wanted, size, PROT_NONE, wanted != NULL ? EMPTY | MAP_FIXED_NOREPLACE : EMPTY, -1, 0);
    if (got == MAP_FAILED)
        return errno == EEXIST ? pmtrace_fail(PMEM2_E_MAPPING_EXISTS, "%zu bytes at %p are not free", size, (void *)wanted)
                               : pmtrace_fail_by_errno("mmap");
    *address = got;
    if (wanted == NULL || got == wanted)
        return 0;
    munmap(got, size);
    return pmtrace_fail(PMEM2_E_MAPPING_EXISTS, "%zu bytes at %p are not free", size, (void *)wanted);
}

int pmem2_vm_reservation_new(struct pmem2_vm_reservation **reservation, void *address, size_t size) {
    *reservation = NULL;
    if (!pmtrace_whole_pages((size_t)(uintptr_t)address))
        return pmtrace_fail(PMEM2_E_ADDRESS_UNALIGNED, "address %p is not at the beginning of a page", address);
    if (!pmtrace_whole_pages(size))
        return pmtrace_fail(PMEM2_E_LENGTH_UNALIGNED, "size %zu is not of whole pages", size);
    struct pmem2_vm_reservation *made;
    int error = pmtrace_new((void **)&made, sizeof *made);
    if (error != 0)
        return error;
    made->size = size;
    error = reserve(address, size, &made->address);
    if (error != 0)
        free(made);
    else
        *reservation = made;
    return error;
}

int pmem2_vm_reservation_delete(struct pmem2_vm_reservation **reservation) {
    int error = 0;
    pmtrace_maps_lock();
    if (pmtrace_maps_first_in((*reservation)->address, (*reservation)->size) != NULL)
        error = pmtrace_fail(PMEM2_E_VM_RESERVATION_NOT_EMPTY, "the reservation has a mapping");
    else if (munmap((*reservation)->address, (*reservation)->size) != 0)
        error = pmtrace_fail_by_errno("munmap");
    pmtrace_maps_unlock();
    if (error == 0) {
        free(*reservation);
        *reservation = NULL;
    }
    return error;
}

int pmem2_vm_reservation_extend(struct pmem2_vm_reservation *reservation, size_t size) {
    char *address;
    if (!pmtrace_whole_pages(size))
        return pmtrace_fail(PMEM2_E_LENGTH_UNALIGNED, "size %zu is not of whole pages", size);
    pmtrace_maps_lock();
    int error = reserve(reservation->address + reservation->size, size, &address);
    if (error == 0)
        reservation->size += size;
    pmtrace_maps_unlock();
    return error;
}

/* Answers 0 where the part can be taken off the reservation, else why not. The lock is held. */
static int check_part(const struct pmem2_vm_reservation *reservation, size_t offset, size_t size) {
    if (!pmtrace_whole_pages(offset))
        return pmtrace_fail(PMEM2_E_OFFSET_UNALIGNED, "offset %zu is not of whole pages", offset);
    if (!pmtrace_whole_pages(size))
        return pmtrace_fail(PMEM2_E_LENGTH_UNALIGNED, "size %zu is not of whole pages", size);
    if (offset >= reservation->size)
        return pmtrace_fail(PMEM2_E_OFFSET_OUT_OF_RANGE, "offset %zu is not in the reservation", offset);
    if (size == 0 || size > reservation->size - offset)
        return pmtrace_fail(PMEM2_E_LENGTH_OUT_OF_RANGE, "%zu bytes at offset %zu are not in the reservation", size, offset);
    if ((offset > 0 && offset + size < reservation->size) || size == reservation->size)
        return pmtrace_fail(PMEM2_E_NOSUPP, "a reservation is shortened at one of its ends");
    if (pmtrace_maps_first_in(reservation->address + offset, size) != NULL)
        return pmtrace_fail(PMEM2_E_VM_RESERVATION_NOT_EMPTY, "this part of the reservation has a mapping");
    return 0;
}

int pmem2_vm_reservation_shrink(struct pmem2_vm_reservation *reservation, size_t offset, size_t size) {
    pmtrace_maps_lock();
    int error = check_part(reservation, offset, size);
    if (error == 0 && munmap(reservation->address + offset, size) != 0)
        error = pmtrace_fail_by_errno("munmap");
    if (error == 0) {
        reservation->size -= size;
        reservation->address += offset == 0 ? size : 0;
    }
    pmtrace_maps_unlock();
    return error;
}

void *pmem2_vm_reservation_get_address(struct pmem2_vm_reservation *reservation) {
    return reservation->address;
}

size_t pmem2_vm_reservation_get_size(struct pmem2_vm_reservation *reservation) {
    return reservation->size;
}

int pmtrace_reservation_place(const struct pmem2_vm_reservation *reservation, size_t offset, size_t length, char **place) {
    if (!pmtrace_whole_pages(offset))
        return pmtrace_fail(PMEM2_E_OFFSET_UNALIGNED, "offset %zu in the reservation is not of whole pages", offset);
    if (offset > reservation->size || length > reservation->size - offset)
        return pmtrace_fail(PMEM2_E_LENGTH_OUT_OF_RANGE, "%zu bytes at offset %zu are not in the reservation", length, offset);
    *place = reservation->address + offset;
    if (pmtrace_maps_first_in(*place, length) != NULL)
        return pmtrace_fail(PMEM2_E_MAPPING_EXISTS, "this part of the reservation has a mapping");
    return 0;
}

/* Gives what was found, if anything was, to the caller. */
static int answer(struct pmem2_map *found, struct pmem2_map **map) {
    *map = found;
    return found != NULL ? 0 : pmtrace_fail(PMEM2_E_MAPPING_NOT_FOUND, "the reservation has no such mapping");
}

/* The last mapping in this part of the reservation, or NULL. The lock is held. */
static struct pmem2_map *last_in(const char *start, size_t length) {
    struct pmem2_map *last = NULL, *map = pmtrace_maps_first_in(start, length);
    for (; map != NULL && map->address < start + length; map = map->next)
        last = map;
    return last;
}

int pmem2_vm_reservation_map_find(struct pmem2_vm_reservation *reservation, size_t offset, size_t length,
                                  struct pmem2_map **map) {
    size_t rest = offset < reservation->size ? reservation->size - offset : 0;
    pmtrace_maps_lock();
    struct pmem2_map *found = pmtrace_maps_first_in(reservation->address + offset, length < rest ? length : rest);
    pmtrace_maps_unlock();
    return answer(found, map);
}

int pmem2_vm_reservation_map_find_prev(struct pmem2_vm_reservation *reservation, struct pmem2_map *map,
                                       struct pmem2_map **previous) {
    pmtrace_maps_lock();
    struct pmem2_map *found = last_in(reservation->address, (size_t)(map->address - reservation->address));
    pmtrace_maps_unlock();
    return answer(found, previous);
}

int pmem2_vm_reservation_map_find_next(struct pmem2_vm_reservation *reservation, struct pmem2_map *map, struct pmem2_map **next) {
    const char *start = map->address + map->reserved, *end = reservation->address + reservation->size;
    pmtrace_maps_lock();
    struct pmem2_map *found = pmtrace_maps_first_in(start, (size_t)(end - start));
    pmtrace_maps_unlock();
    return answer(found, next);
}

int pmem2_vm_reservation_map_find_first(struct pmem2_vm_reservation *reservation, struct pmem2_map **map) {
    return pmem2_vm_reservation_map_find(reservation, 0, reservation->size, map);
}

int pmem2_vm_reservation_map_find_last(struct pmem2_vm_reservation *reservation, struct pmem2_map **map) {
    pmtrace_maps_lock();
    struct pmem2_map *found = last_in(reservation->address, reservation->size);
    pmtrace_maps_unlock();
    return answer(found, map);
}
