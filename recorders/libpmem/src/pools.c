#include "pools.h"

#include "keep.h"
#include "message.h"
#include "pmtrace.h"

#include <pthread.h>
#include <stdio.h>
#include <stdlib.h>
#include <unistd.h>

enum { LINE_SIZE = 64 };

/* A mapping's addresses. They don't overlap. */
struct range {
    uintptr_t first, end;
    enum pmtrace_memory kind;
    struct range *next;
};

/* The lock guards the ranges. The recorder is not called while it is held: it has a lock of its own, and fork takes both. */
static pthread_mutex_t lock = PTHREAD_MUTEX_INITIALIZER;
static struct range *ranges;
static unsigned volatile_ranges; /* how many; also read without the lock */

/* One pool is begun at a time, so that one is the first; the files that are kept need it too. Of a fork in the meantime the child
 * has the lock anew. */
static pthread_mutex_t beginning = PTHREAD_MUTEX_INITIALIZER;

static unsigned left_out; /* whether some memory was, which was told */

static void take_lock(void) {
    pthread_mutex_lock(&lock);
}

static void give_lock(void) {
    pthread_mutex_unlock(&lock);
}

static void give_locks_of_child(void) {
    pthread_mutex_unlock(&lock);
    pthread_mutex_init(&beginning, NULL);
}

__attribute__((constructor)) static void prepare_for_fork(void) {
    pthread_atfork(take_lock, give_lock, give_locks_of_child);
}

/* --- the ranges; the lock is held --- */

static void add_range(uintptr_t first, uintptr_t end, enum pmtrace_memory kind) {
    struct range *range = malloc(sizeof *range);
    if (range == NULL) {
        pmtrace_warn("there is no memory to remember the mapping at %#lx", (unsigned long)first);
        return;
    }
    range->first = first;
    range->end = end;
    range->kind = kind;
    range->next = ranges;
    ranges = range;
    if (kind == PMTRACE_VOLATILE)
        __atomic_add_fetch(&volatile_ranges, 1, __ATOMIC_RELAXED);
}

/* Takes out the range at this link, and leaves what of it is not from `first` to `end`. */
static void cut_range(struct range **link, uintptr_t first, uintptr_t end) {
    struct range range = **link;
    free(*link);
    *link = range.next;
    if (range.kind == PMTRACE_VOLATILE)
        __atomic_sub_fetch(&volatile_ranges, 1, __ATOMIC_RELAXED);
    if (range.first < first)
        add_range(range.first, first, range.kind);
    if (end < range.end)
        add_range(end, range.end, range.kind);
}

/* The link of a range that has some of these addresses, or NULL. */
static struct range **find_range(uintptr_t first, uintptr_t end) {
    for (struct range **link = &ranges; *link != NULL; link = &(*link)->next)
        if ((*link)->first < end && first < (*link)->end)
            return link;
    return NULL;
}

static void remove_ranges(uintptr_t first, uintptr_t end) {
    struct range **link;
    while ((link = find_range(first, end)) != NULL)
        cut_range(link, first, end);
}

static bool is_all_locked(enum pmtrace_memory kind, uintptr_t first, uintptr_t end) {
    while (first < end) {
        struct range **link = find_range(first, first + 1);
        if (link == NULL || (*link)->kind != kind)
            return false;
        first = (*link)->end;
    }
    return true;
}

/* --- recording --- */

/* Opens the trace beside the file of this name, or in that which the environment names. */
static int open_first(const char *label, const void *start, size_t length, const char *name) {
    const char *file = getenv("PMTRACE_FILE");
    size_t size = strlen(name) + sizeof ".trace";
    char *beside = NULL;
    if (file == NULL) {
        beside = malloc(size);
        if (beside == NULL) {
            pmtrace_warn("%s: there is no memory for its name; nothing is recorded", name);
            return -1;
        }
        snprintf(beside, size, "%s.trace", name);
        file = beside;
    }
    int answer = pmtrace_open_at(label, file, start, length, LINE_SIZE);
    free(beside);
    return answer;
}

static void record(const char *label, const void *start, size_t length, const char *name) {
    bool open = pmtrace_records(NULL, 0);
    int answer = open ? pmtrace_open_at(label, NULL, start, length, LINE_SIZE) : open_first(label, start, length, name);
    if (answer == 0) {
        (void)pmtrace_watch_at(label);
        pmtrace_keep_file(start);
    }
}

static void set_range(const void *start, size_t length, enum pmtrace_memory kind) {
    uintptr_t first = (uintptr_t)start;
    take_lock();
    remove_ranges(first, first + length);
    add_range(first, first + length, kind);
    give_lock();
}

/* --- what the library calls --- */

void pmtrace_begin_pool(const char *label, const void *start, size_t length, const char *name) {
    int cancel;
    set_range(start, length, PMTRACE_PERSISTENT);
    pthread_setcancelstate(PTHREAD_CANCEL_DISABLE, &cancel);
    pthread_mutex_lock(&beginning);
    record(label, start, length, name);
    pthread_mutex_unlock(&beginning);
    pthread_setcancelstate(cancel, NULL);
}

void pmtrace_leave_out(const void *start, size_t length, const char *why) {
    if (__atomic_exchange_n(&left_out, 1, __ATOMIC_RELAXED) == 0)
        pmtrace_warn("%zu bytes at %p are %s: nothing of such memory is recorded", length, start, why);
    set_range(start, length, PMTRACE_VOLATILE);
}

void pmtrace_end_pool(const char *label, const void *start, size_t length) {
    uintptr_t first = (uintptr_t)start, page = (uintptr_t)sysconf(_SC_PAGESIZE);
    (void)pmtrace_forget_at(label, start, length);
    take_lock();
    remove_ranges(first, first + (length + page - 1) / page * page);
    give_lock();
}

bool pmtrace_is_all(enum pmtrace_memory kind, const void *start, size_t length) {
    uintptr_t first = (uintptr_t)start;
    if (kind == PMTRACE_VOLATILE && __atomic_load_n(&volatile_ranges, __ATOMIC_RELAXED) == 0)
        return false;
    take_lock();
    bool answer = length > 0 && is_all_locked(kind, first, first + length);
    give_lock();
    return answer;
}

const void *pmtrace_end_of_pages(const void *start, size_t length) {
    uintptr_t last = (uintptr_t)start + length - 1, page = (uintptr_t)sysconf(_SC_PAGESIZE), end = 0;
    take_lock();
    struct range **link = find_range(last, last + 1);
    if (link != NULL && (*link)->kind == PMTRACE_PERSISTENT)
        end = last - last % page + page < (*link)->end ? last - last % page + page : (*link)->end;
    give_lock();
    return (const void *)end;
}
