/* files FOLDER: a log and its data, written by each call that writes to a file by its descriptor, and mapped nowhere. */
#define _GNU_SOURCE
#include "pmtrim_record.h"

#include <errno.h>
#include <fcntl.h>
#include <stdio.h>
#include <string.h>
#include <sys/sendfile.h>
#include <sys/uio.h>
#include <unistd.h>

static int open_in(const char *folder, const char *name, int flags) {
    char path[4096];
    snprintf(path, sizeof path, "%s/%s", folder, name);
    return open(path, O_RDWR | O_CREAT | flags, 0666);
}

/* Records in the log, by one call each. */
static int write_log(int log) {
    struct iovec parts[] = {{"writ", 4}, {"ev, in two", 10}};
    if (write(log, "write", 5) != 5 || writev(log, parts, 2) != 14 || pwrite(log, "pwrite", 6, 100) != 6 ||
        pwritev(log, parts, 2, 200) != 14 || pwritev2(log, parts, 1, 300, 0) != 4 || pwritev2(log, parts, 2, -1, 0) != 14)
        return -1;
    return fdatasync(log);
}

static int copy_from(int log, int data) {
    loff_t from = 100, to = 512;
    off_t at = 200;
    if (copy_file_range(log, &from, data, &to, 6, 0) != 6 || lseek(data, 600, SEEK_SET) != 600 || sendfile(data, log, &at, 14) != 14)
        return -1;
    return fsync(data);
}

int main(int argc, char **argv) {
    static char page[4096];
    if (argc != 2)
        return 2;
    int log = open_in(argv[1], "log", O_TRUNC), data = open_in(argv[1], "data", 0), other = open_in(argv[1], "data-other", O_TRUNC);
    memset(page, 'p', sizeof page);
    if (log < 0 || data < 0 || other < 0 || write_log(log) != 0 || write(other, "unseen", 6) != 6)
        return 1;
    if (pwrite(data, page, 70, 4090) != 70)
        return 1;
    PMTRIM_FILE_IS_ORDERED_BEFORE(log, 100, 6, data, 4090, 70);
    PMTRIM_FILE_IS_PERSIST(data, 4090, 70);
    if (copy_from(log, data) != 0)
        return 1;
    PMTRIM_FILE_IS_PERSIST(data, 4090, 70);
    int through = open_in(argv[1], "data", O_DSYNC);
    if (pwrite(through, "through", 7, 8000) != 7)
        return 1;
    PMTRIM_FILE_IS_PERSIST(data, 8000, 7);
    /* at the end, whatever its offset says */
    struct iovec more = {"appended", 8};
    if (pwritev2(data, &more, 1, 16, RWF_APPEND) != 8)
        return 1;
    PMTRIM_FILE_IS_PERSIST(data, 8007, 8);
    /* the log is emptied by its opening */
    return open_in(argv[1], "log", O_TRUNC) < 0 || truncate("/dev/null", 0) == 0;
}
