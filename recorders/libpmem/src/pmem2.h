/* pmem2.h: what the parts of libpmem2 know of each other. */
#ifndef PMTRACE_PMEM2_H
#define PMTRACE_PMEM2_H

#include <libpmem2/base.h>
#include <stdbool.h>
#include <stddef.h>

struct pmem2_source {
    int file;    /* -1 where the source is anonymous */
    size_t size; /* of an anonymous source */
};

struct pmem2_config {
    int granularity; /* -1 where it was not set */
    enum pmem2_sharing_type sharing;
    unsigned protection;
    size_t offset;
    size_t length; /* 0: up to the end of the source */
    struct pmem2_vm_reservation *reservation;
    size_t reservation_offset;
};

struct pmem2_map {
    char *address;
    size_t length;
    size_t reserved; /* the length in whole pages */
    enum pmem2_granularity granularity;
    bool anonymous;
    bool existing; /* the program mapped it */
    struct pmem2_vm_reservation *reservation;
    struct pmem2_map *next; /* by rising address */
};

/* The mappings that there are. The lock guards the list, and all reservations. The recorder is not called while it is held: it
 * has a lock of its own, and fork takes both. */
void pmtrace_maps_lock(void);
void pmtrace_maps_unlock(void);
bool pmtrace_maps_add(struct pmem2_map *map); /* false where it would overlap another */
bool pmtrace_maps_has(const struct pmem2_map *map);
bool pmtrace_maps_remove(const struct pmem2_map *map);
struct pmem2_map *pmtrace_maps_first_in(const char *start, size_t length); /* the first that overlaps the range, or NULL */

/* The place in a reservation for so many bytes. The lock is held. Answers 0 or an error. */
int pmtrace_reservation_place(const struct pmem2_vm_reservation *reservation, size_t offset, size_t length, char **place);

size_t pmtrace_page_size(void);
bool pmtrace_whole_pages(size_t number);

/* Keeps the message, and answers the error. */
int pmtrace_fail(int error, const char *format, ...) __attribute__((format(printf, 2, 3)));

/* Keeps what the system call that just failed says, and answers -errno. */
int pmtrace_fail_by_errno(const char *what);

/* Memory for an object, of zeros. Answers 0, or -ENOMEM and NULL. */
int pmtrace_new(void **object, size_t size);

#endif /* PMTRACE_PMEM2_H */
