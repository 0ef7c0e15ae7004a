#define _GNU_SOURCE
#include "libpmem.h"

#include "message.h"
#include "pools.h"
#include "where.h"

#include <errno.h>
#include <fcntl.h>
#include <limits.h>
#include <stdbool.h>
#include <stdint.h>
#include <stdio.h>
#include <stdlib.h>
#include <string.h>
#include <sys/mman.h>
#include <sys/stat.h>
#include <unistd.h>

enum { EVERY_FLAG = PMEM_FILE_CREATE | PMEM_FILE_EXCL | PMEM_FILE_SPARSE | PMEM_FILE_TMPFILE };

/* What pmem_map_file was asked for. */
struct request {
    const char *path;
    size_t length;
    int flags;
    mode_t mode;
};

static bool refuse(int error, const char *why) {
    pmtrace_message("%s", why);
    errno = error;
    return false;
}

static bool check(const struct request *request) {
    bool creates = (request->flags & PMEM_FILE_CREATE) != 0;
    if (request->flags & ~EVERY_FLAG)
        return refuse(EINVAL, "pmem_map_file has no such flag");
    if (creates && request->length == 0)
        return refuse(EINVAL, "a length of zero does not go with PMEM_FILE_CREATE");
    if (creates && request->length > (size_t)INT64_MAX)
        return refuse(EINVAL, "a file can't have such a length");
    if (!creates && request->length != 0)
        return refuse(EINVAL, "a length goes with PMEM_FILE_CREATE alone");
    if (!creates && (request->flags & PMEM_FILE_TMPFILE))
        return refuse(EINVAL, "PMEM_FILE_TMPFILE goes with PMEM_FILE_CREATE alone");
    return true;
}

/* Opens a file without a name in the directory. */
static int open_temporary(const char *directory, int exclusive) {
    int file = open(directory, O_TMPFILE | O_RDWR | O_CLOEXEC | exclusive, 0600);
    if (file >= 0 || (errno != EOPNOTSUPP && errno != EISDIR))
        return file;
    char path[PATH_MAX];
    if (snprintf(path, sizeof path, "%s/pmem.XXXXXX", directory) >= (int)sizeof path) {
        errno = ENAMETOOLONG;
        return -1;
    }
    file = mkostemp(path, O_CLOEXEC);
    if (file >= 0)
        unlink(path);
    return file;
}

static int open_file(const struct request *request) {
    int exclusive = request->flags & PMEM_FILE_EXCL ? O_EXCL : 0, create = request->flags & PMEM_FILE_CREATE ? O_CREAT : 0;
    int file = request->flags & PMEM_FILE_TMPFILE ? open_temporary(request->path, exclusive)
                                                  : open(request->path, O_RDWR | O_CLOEXEC | create | exclusive, request->mode);
    if (file < 0)
        pmtrace_message_of_errno("%s can't be opened", request->path);
    return file;
}

/* Makes the file as long as asked, where it is to be made, and tells its length. */
static bool set_length(const struct request *request, int file, size_t *length) {
    struct stat status;
    if (fstat(file, &status) == 0 && !S_ISREG(status.st_mode))
        return refuse(EINVAL, "only regular files are recorded");
    if ((request->flags & PMEM_FILE_CREATE) && ftruncate(file, (off_t)request->length) != 0) {
        pmtrace_message_of_errno("%s: ftruncate", request->path);
        return false;
    }
    if ((request->flags & PMEM_FILE_CREATE) && !(request->flags & PMEM_FILE_SPARSE)) {
        errno = posix_fallocate(file, 0, (off_t)request->length);
        if (errno != 0) {
            pmtrace_message_of_errno("%s: posix_fallocate", request->path);
            return false;
        }
    }
    if (fstat(file, &status) != 0) {
        pmtrace_message_of_errno("%s: fstat", request->path);
        return false;
    }
    *length = (size_t)status.st_size;
    return true;
}

/* Maps the file, or answers NULL. */
static void *map(const struct request *request, int file, size_t *length) {
    if (!set_length(request, file, length))
        return NULL;
    void *start = mmap(NULL, *length, PROT_READ | PROT_WRITE, MAP_SHARED, file, 0);
    if (start != MAP_FAILED)
        return start;
    pmtrace_message_of_errno("%s: mmap", request->path);
    return NULL;
}

/* A name for what is mapped: the path, or in the directory of a file without a name, "tmpfile". */
static void name_of(const struct request *request, char *name, size_t size) {
    snprintf(name, size, request->flags & PMEM_FILE_TMPFILE ? "%s/tmpfile" : "%s", request->path);
}

void *pmem_map_file(const char *path, size_t length, int flags, mode_t mode, size_t *mapped_length, int *is_pmem) {
    const char *label = PMTRACE_CALLER;
    struct request request = {path, length, flags, mode};
    char name[PATH_MAX + sizeof "/tmpfile"];
    size_t whole = 0;
    int file = check(&request) ? open_file(&request) : -1;
    if (file < 0)
        return NULL;
    void *start = map(&request, file, &whole);
    int error = errno;
    if (start == NULL && (flags & PMEM_FILE_CREATE) && (flags & PMEM_FILE_EXCL) && !(flags & PMEM_FILE_TMPFILE))
        unlink(path);
    close(file);
    errno = error;
    if (start == NULL)
        return NULL;
    name_of(&request, name, sizeof name);
    pmtrace_begin_pool(label, start, whole, name);
    if (mapped_length != NULL)
        *mapped_length = whole;
    if (is_pmem != NULL)
        *is_pmem = pmem_is_pmem(start, whole);
    return start;
}

int pmem_unmap(void *start, size_t length) {
    size_t page = (size_t)sysconf(_SC_PAGESIZE);
    if (length == 0 || (uintptr_t)start % page != 0 || length > SIZE_MAX - page) {
        pmtrace_message("%zu bytes at %p are no mapping", length, start);
        errno = EINVAL;
        return -1;
    }
    pmtrace_end_pool(PMTRACE_CALLER, start, length);
    if (munmap(start, length) == 0)
        return 0;
    pmtrace_message_of_errno("munmap");
    return -1;
}
