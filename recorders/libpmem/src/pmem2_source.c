#include "pmem2.h"

#include <errno.h>
#include <fcntl.h>
#include <stdlib.h>
#include <sys/stat.h>
#include <sys/types.h>
#include <unistd.h>

size_t pmtrace_page_size(void) {
    return (size_t)sysconf(_SC_PAGESIZE);
}

bool pmtrace_whole_pages(size_t number) {
    return number % pmtrace_page_size() == 0;
}

/* Answers 0 where the file can be a source, else why not. */
static int check_file(int file) {
    struct stat status;
    int flags = fcntl(file, F_GETFL);
    if (flags == -1 || fstat(file, &status) != 0)
        return errno == EBADF ? pmtrace_fail(PMEM2_E_INVALID_FILE_HANDLE, "file descriptor %d is not open", file)
                              : pmtrace_fail_by_errno("fstat");
    if ((flags & O_ACCMODE) == O_WRONLY)
        return pmtrace_fail(PMEM2_E_INVALID_FILE_HANDLE, "file descriptor %d is open for writing only", file);
    if (!S_ISREG(status.st_mode))
        return pmtrace_fail(PMEM2_E_INVALID_FILE_TYPE, "file descriptor %d is not a regular file", file);
    return 0;
}

static int new_source(struct pmem2_source **source, int file, size_t size) {
    int error = pmtrace_new((void **)source, sizeof **source);
    if (error != 0)
        return error;
    (*source)->file = file;
    (*source)->size = size;
    return 0;
}

int pmem2_source_from_fd(struct pmem2_source **source, int file) {
    *source = NULL;
    int error = check_file(file);
    return error != 0 ? error : new_source(source, file, 0);
}

int pmem2_source_from_anon(struct pmem2_source **source, size_t size) {
    return new_source(source, -1, size);
}

int pmem2_source_get_fd(const struct pmem2_source *source, int *file) {
    if (source->file < 0)
        return pmtrace_fail(PMEM2_E_FILE_DESCRIPTOR_NOT_SET, "an anonymous source has no file descriptor");
    *file = source->file;
    return 0;
}

int pmem2_source_size(const struct pmem2_source *source, size_t *size) {
    struct stat status;
    int error = source->file < 0 ? 0 : check_file(source->file);
    if (error != 0)
        return error;
    if (source->file >= 0 && fstat(source->file, &status) != 0)
        return pmtrace_fail_by_errno("fstat");
    *size = source->file < 0 ? source->size : (size_t)status.st_size;
    return 0;
}

int pmem2_source_alignment(const struct pmem2_source *source, size_t *alignment) {
    (void)source;
    *alignment = pmtrace_page_size();
    return 0;
}

int pmem2_source_delete(struct pmem2_source **source) {
    free(*source);
    *source = NULL;
    return 0;
}

/* Answers 0 where the source is a file that has the range, else why not. */
static int check_range(const struct pmem2_source *source, size_t size, size_t offset) {
    size_t whole = 0;
    if (source->file < 0)
        return pmtrace_fail(PMEM2_E_SOURCE_TYPE_NOT_SUPPORTED, "an anonymous source can't be read or written");
    int error = pmem2_source_size(source, &whole);
    if (error == 0 && (offset > whole || size > whole - offset))
        error = pmtrace_fail(PMEM2_E_LENGTH_OUT_OF_RANGE, "%zu bytes at %zu are not all in a file of %zu", size, offset, whole);
    return error;
}

/* Answers what went wrong when so many bytes were read or written, 0 of them where the file is shorter than it was. */
static int io_error(ssize_t done, const char *what) {
    if (done < 0 && errno != EIO)
        return pmtrace_fail_by_errno(what);
    return pmtrace_fail(PMEM2_E_IO_FAIL, "%s: %s", what, done < 0 ? "an input or output error" : "the file has been cut");
}

int pmem2_source_pread_mcsafe(struct pmem2_source *source, void *buffer, size_t size, size_t offset) {
    int error = check_range(source, size, offset);
    for (size_t at = 0; error == 0 && at < size;) {
        ssize_t done = pread(source->file, (char *)buffer + at, size - at, (off_t)(offset + at));
        error = done > 0 || (done < 0 && errno == EINTR) ? 0 : io_error(done, "pread");
        at += done > 0 ? (size_t)done : 0;
    }
    return error;
}

int pmem2_source_pwrite_mcsafe(struct pmem2_source *source, void *buffer, size_t size, size_t offset) {
    int error = check_range(source, size, offset);
    for (size_t at = 0; error == 0 && at < size;) {
        ssize_t done = pwrite(source->file, (const char *)buffer + at, size - at, (off_t)(offset + at));
        error = done > 0 || (done < 0 && errno == EINTR) ? 0 : io_error(done, "pwrite");
        at += done > 0 ? (size_t)done : 0;
    }
    return error;
}

int pmem2_source_device_id(const struct pmem2_source *source, char *id, size_t *length) {
    (void)source, (void)id, (void)length;
    return pmtrace_fail(PMEM2_E_NOSUPP, "a recorded file has no device");
}

int pmem2_source_device_usc(const struct pmem2_source *source, uint64_t *count) {
    (void)source, (void)count;
    return pmtrace_fail(PMEM2_E_NOSUPP, "a recorded file has no count of unsafe shutdowns");
}

int pmem2_source_numa_node(const struct pmem2_source *source, int *node) {
    (void)source, (void)node;
    return pmtrace_fail(PMEM2_E_NOSUPP, "a recorded file has no node");
}
