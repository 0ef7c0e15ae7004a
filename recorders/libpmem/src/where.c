#define _GNU_SOURCE
#include "where.h"

#include <errno.h>
#include <link.h>
#include <stdbool.h>
#include <stdint.h>
#include <stdio.h>
#include <string.h>
#include <unistd.h>

/* A place that called, and its label. Places are added and stay. */
struct place {
    uintptr_t address;
    struct place *next;
    char label[];
};

enum { CHAINS = 1024, ROOM = 1 << 20 };
static struct place *chains[CHAINS];

/* Where the places are: room that no allocator gives, since the program's own may be what calls. Full, it gives no more. */
static _Alignas(struct place) char room[ROOM];
static size_t room_used;

/* The module that an address is in, while it is looked for. */
struct module {
    uintptr_t address;
    uintptr_t base; /* what the module's addresses are greater by than those in its file */
    const char *name;
};

static int look_at_module(struct dl_phdr_info *info, size_t size, void *found) {
    struct module *module = found;
    (void)size;
    for (size_t at = 0; at < info->dlpi_phnum; at++) {
        uintptr_t first = info->dlpi_addr + info->dlpi_phdr[at].p_vaddr;
        if (info->dlpi_phdr[at].p_type == PT_LOAD && module->address - first < info->dlpi_phdr[at].p_memsz) {
            module->base = info->dlpi_addr;
            module->name = info->dlpi_name;
            return 1;
        }
    }
    return 0;
}

static struct place *take_room(size_t length) {
    size_t rounded = (length + _Alignof(struct place) - 1) / _Alignof(struct place) * _Alignof(struct place);
    size_t at = __atomic_load_n(&room_used, __ATOMIC_RELAXED);
    while (rounded <= ROOM - at)
        if (__atomic_compare_exchange_n(&room_used, &at, at + rounded, false, __ATOMIC_RELAXED, __ATOMIC_RELAXED))
            return (struct place *)(room + at);
    return NULL;
}

/* The program's file, or "?". */
static const char *program_name(char *name, size_t size) {
    ssize_t length = readlink("/proc/self/exe", name, size - 1);
    name[length > 0 ? length : 0] = '\0';
    return length > 0 ? name : "?";
}

static struct place *new_place(uintptr_t address) {
    char name[4096], offset[sizeof "+0x0123456789abcdef"];
    struct module module = {address - 1, 0, NULL};
    int error = errno;
    dl_iterate_phdr(look_at_module, &module);
    if (module.name == NULL)
        module.name = "?";
    else if (module.name[0] == '\0')
        module.name = program_name(name, sizeof name);
    errno = error;
    snprintf(offset, sizeof offset, "+%#lx", (unsigned long)(module.address - module.base));
    size_t length = strlen(module.name) + strlen(offset) + 1;
    struct place *place = take_room(sizeof *place + length);
    if (place == NULL)
        return NULL;
    place->address = address;
    snprintf(place->label, length, "%s%s", module.name, offset);
    return place;
}

/* The place of the address in the chain, from this one on up to that one. */
static struct place *find(struct place *place, const struct place *end, uintptr_t address) {
    while (place != end && place->address != address)
        place = place->next;
    return place != end ? place : NULL;
}

const char *pmtrace_where(const void *return_address) {
    uintptr_t address = (uintptr_t)return_address;
    struct place **chain = &chains[(address ^ address >> 12) % CHAINS];
    struct place *first = __atomic_load_n(chain, __ATOMIC_ACQUIRE), *seen = NULL;
    struct place *place = find(first, seen, address), *made = place == NULL ? new_place(address) : NULL;
    while (place == NULL && made != NULL) {
        made->next = seen = first;
        if (__atomic_compare_exchange_n(chain, &first, made, false, __ATOMIC_ACQ_REL, __ATOMIC_ACQUIRE))
            return made->label;
        place = find(first, seen, address);
    }
    return place != NULL ? place->label : "?";
}
