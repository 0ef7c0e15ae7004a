#include "mapped.h"

#include <limits.h>
#include <stdint.h>
#include <stdio.h>
#include <string.h>

/* Takes a line of /proc/self/maps to pieces, as far as it is about these addresses. The name stays in the line. */
static bool read_line(char *line, uintptr_t first, uintptr_t end, struct pmtrace_mapped *mapped) {
    unsigned long from, to, inode;
    char rights[5], device[sizeof mapped->device];
    int name = 0;
    line[strcspn(line, "\n")] = '\0';
    if (sscanf(line, "%lx-%lx %4s %*s %15s %lu %n", &from, &to, rights, device, &inode, &name) != 5 || name == 0)
        return false;
    from = from > first ? from : first;
    to = to < end ? to : end;
    mapped->start = (const char *)from;
    mapped->length = to - from;
    mapped->shared = rights[3] == 's' && inode != 0;
    memcpy(mapped->device, device, sizeof device);
    mapped->inode = inode;
    mapped->name = line + name;
    return from < to;
}

bool pmtrace_look_at_mapped(const void *start, size_t length, void (*look)(void *of, const struct pmtrace_mapped *mapped),
                            void *of) {
    char line[PATH_MAX + 128];
    struct pmtrace_mapped mapped;
    uintptr_t first = (uintptr_t)start;
    FILE *maps = fopen("/proc/self/maps", "re");
    if (maps == NULL)
        return false;
    while (fgets(line, sizeof line, maps) != NULL)
        if (read_line(line, first, first + length, &mapped))
            look(of, &mapped);
    fclose(maps);
    return true;
}
