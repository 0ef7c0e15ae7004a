/* --- which pages changed --- */

/* Linux 6.7 and later tell which pages of a range were written to since they were asked last (userfaultfd(2), asynchronous write
 * protection; ioctl_pagemap_scan(2)). The program notices nothing but a page fault for each page. A page that is not there
 * counts as written to. */

#if defined __linux__ && defined SYS_userfaultfd && __has_include(<linux/userfaultfd.h>)
#include <linux/userfaultfd.h>
#endif

#ifdef UFFDIO_REGISTER_MODE_WP

/* struct page_region and struct pm_scan_arg of linux/fs.h, which older headers don't have. */
typedef struct pmtrace_region_ {
    uint64_t start, end, categories;
} pmtrace_region_;

typedef struct pmtrace_scan_ {
    uint64_t size, flags, start, end, walk_end, regions, region_count, most_pages;
    uint64_t inverted, all_of, any_of, answered;
} pmtrace_scan_;

#define PMTRACE_SCAN_ _IOWR('f', 16, pmtrace_scan_)

enum {
    PMTRACE_PROTECT_ = 1,      /* PM_SCAN_WP_MATCHING */
    PMTRACE_CHECK_ = 2,        /* PM_SCAN_CHECK_WPASYNC */
    PMTRACE_WRITTEN_ = 2,      /* PAGE_IS_WRITTEN */
    PMTRACE_USER_MODE_ = 1,    /* UFFD_USER_MODE_ONLY */
    PMTRACE_FEATURES_ = 0xa000 /* UFFD_FEATURE_WP_UNPOPULATED and UFFD_FEATURE_WP_ASYNC */
};

static void pmtrace_stop_tracking_(void) {
    if (pmtrace_.fault_file >= 0)
        close(pmtrace_.fault_file);
    if (pmtrace_.pages_file >= 0)
        close(pmtrace_.pages_file);
    pmtrace_.fault_file = pmtrace_.pages_file = -1;
}

static uintptr_t pmtrace_page_of_(uintptr_t address) {
    return address - address % (uintptr_t)sysconf(_SC_PAGESIZE);
}

/* Asks the kernel to follow what is written, once a trace. */
static bool pmtrace_can_track_(void) {
    if (pmtrace_.fault_file >= 0)
        return true;
    struct uffdio_api api;
    memset(&api, 0, sizeof api);
    api.api = UFFD_API;
    api.features = PMTRACE_FEATURES_;
    pmtrace_.fault_file = (int)syscall(SYS_userfaultfd, O_CLOEXEC | PMTRACE_USER_MODE_);
    pmtrace_.pages_file = open("/proc/self/pagemap", O_RDONLY | O_CLOEXEC);
    if (pmtrace_.fault_file >= 0 && pmtrace_.pages_file >= 0 && ioctl(pmtrace_.fault_file, UFFDIO_API, &api) == 0)
        return true;
    pmtrace_stop_tracking_();
    return false;
}

/* Asks for the pages that were written to; with `protect` the same is not answered again. Answers how many regions. */
static long pmtrace_scan_pages_(uintptr_t start, uintptr_t end, bool protect, pmtrace_region_ *regions, unsigned count,
                                uintptr_t *done) {
    pmtrace_scan_ scan;
    memset(&scan, 0, sizeof scan);
    scan.size = sizeof scan;
    scan.flags = protect ? PMTRACE_PROTECT_ | PMTRACE_CHECK_ : 0;
    scan.start = pmtrace_page_of_(start);
    scan.end = pmtrace_page_of_(end + (uintptr_t)sysconf(_SC_PAGESIZE) - 1);
    scan.regions = (uint64_t)(uintptr_t)regions;
    scan.region_count = count;
    scan.all_of = scan.answered = PMTRACE_WRITTEN_;
    long found;
    do {
        found = ioctl(pmtrace_.pages_file, PMTRACE_SCAN_, &scan);
    } while (found < 0 && errno == EINTR);
    *done = (uintptr_t)scan.walk_end;
    return found;
}

/* The next piece that was written to, taken off what is left. False at the end, where nothing is left; or where the kernel does not
 * tell, where something is. */
static bool pmtrace_next_changed_(pmtrace_range_ *left, pmtrace_range_ *changed) {
    pmtrace_region_ region;
    uintptr_t done, end = left->at + (uintptr_t)left->length;
    if (left->length == 0)
        return false;
    long found = pmtrace_scan_pages_(left->at, end, true, &region, 1, &done);
    if (found < 0)
        return false;
    if (found == 0) {
        *left = pmtrace_rest_(*left, left->length);
        return false;
    }
    uintptr_t first = region.start > left->at ? (uintptr_t)region.start : left->at;
    uintptr_t last = region.end < end ? (uintptr_t)region.end : end;
    *changed = pmtrace_piece_(pmtrace_rest_(*left, first - left->at), last - first);
    *left = pmtrace_rest_(*left, last - left->at);
    return true;
}

/* Whether the page of an address was written to since it was asked last. */
static bool pmtrace_is_changed_(uintptr_t at) {
    pmtrace_region_ region;
    uintptr_t done;
    return pmtrace_scan_pages_(at, at + 1, false, &region, 1, &done) != 0;
}

/* From here on the pages of the range that are written to are told. */
static bool pmtrace_track_(pmtrace_range_ range) {
    if (pmtrace_.look_at_all || !pmtrace_can_track_())
        return false;
    struct uffdio_register ask;
    memset(&ask, 0, sizeof ask);
    ask.range.start = pmtrace_page_of_(range.at);
    ask.range.len = pmtrace_page_of_(range.at + (uintptr_t)range.length + (uintptr_t)sysconf(_SC_PAGESIZE) - 1) - ask.range.start;
    ask.mode = UFFDIO_REGISTER_MODE_WP;
    if (ioctl(pmtrace_.fault_file, UFFDIO_REGISTER, &ask) != 0)
        return false;
    pmtrace_range_ changed;
    while (pmtrace_next_changed_(&range, &changed))
        ;
    return range.length == 0;
}

#else

static void pmtrace_stop_tracking_(void) {
}

static bool pmtrace_next_changed_(pmtrace_range_ *left, pmtrace_range_ *changed) {
    (void)left, (void)changed;
    return false;
}

static bool pmtrace_is_changed_(uintptr_t at) {
    (void)at;
    return true;
}

static bool pmtrace_track_(pmtrace_range_ range) {
    (void)range;
    return false;
}

#endif
