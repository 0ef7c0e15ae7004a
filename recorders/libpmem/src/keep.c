#define _GNU_SOURCE
#include "keep.h"

#include "mapped.h"
#include "message.h"

#include <errno.h>
#include <fcntl.h>
#include <stdint.h>
#include <stdlib.h>
#include <string.h>
#include <sys/mman.h>
#include <sys/stat.h>
#include <unistd.h>

/* A file that is kept. They are added and stay. */
struct kept {
    char device[16];
    unsigned long inode;
    struct kept *next;
};

static struct kept *files;

static bool is_kept(const struct pmtrace_mapped *mapped) {
    const struct kept *kept = files;
    while (kept != NULL && (kept->inode != mapped->inode || strcmp(kept->device, mapped->device) != 0))
        kept = kept->next;
    return kept != NULL;
}

/* A descriptor by the path alone keeps the file, and none of the locks that the program has: a mapping would keep flock's, and the
 * end of an ordinary descriptor would give up those of fcntl. Its number is out of the way of the program's. */
static bool hold_by_path(const struct pmtrace_mapped *mapped) {
    const int first_number = 500;
    struct stat status;
    int found = open(mapped->name, O_PATH | O_CLOEXEC);
    bool same = found >= 0 && fstat(found, &status) == 0 && status.st_ino == mapped->inode;
    int held = same ? fcntl(found, F_DUPFD_CLOEXEC, first_number) : -1;
    if (found >= 0 && !(same && held < 0))
        close(found);
    return same;
}

/* Where the path leads to the file no more, a second mapping of its first page keeps it (mremap(2), an old size of zero). */
static bool hold_by_mapping(const struct pmtrace_mapped *mapped) {
    size_t page = (size_t)sysconf(_SC_PAGESIZE);
    void *held = mremap((void *)(uintptr_t)mapped->start, 0, page, MREMAP_MAYMOVE);
    return held != MAP_FAILED && mprotect(held, page, PROT_NONE) == 0;
}

static void keep(void *unused, const struct pmtrace_mapped *mapped) {
    struct kept *kept;
    (void)unused;
    if (!mapped->shared || is_kept(mapped))
        return;
    kept = malloc(sizeof *kept);
    if (kept == NULL || !(hold_by_path(mapped) || hold_by_mapping(mapped))) {
        pmtrace_warn("%s can't be kept: %s; once it is removed, a new file may get its addresses", mapped->name, strerror(errno));
        free(kept);
        return;
    }
    memcpy(kept->device, mapped->device, sizeof kept->device);
    kept->inode = mapped->inode;
    kept->next = files;
    files = kept;
}

void pmtrace_keep_file(const void *start) {
    (void)pmtrace_look_at_mapped(start, 1, keep, NULL);
}
