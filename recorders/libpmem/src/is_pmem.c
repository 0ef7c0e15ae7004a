#include "libpmem.h"

#include "mapped.h"
#include "message.h"
#include "pmtrace.h"
#include "pools.h"
#include "where.h"

#include <errno.h>
#include <stdbool.h>
#include <stdlib.h>
#include <string.h>

/* What PMEM_IS_PMEM_FORCE says at the first call: 0 or 1, or -1 where it is not set. */
static int forced(void) {
    static int kept = -2;
    int value = __atomic_load_n(&kept, __ATOMIC_RELAXED);
    if (value == -2) {
        const char *text = getenv("PMEM_IS_PMEM_FORCE");
        value = text == NULL ? -1 : atoi(text) != 0;
        __atomic_store_n(&kept, value, __ATOMIC_RELAXED);
    }
    return value;
}

/* Begins to record a shared mapping of a file, if that has not begun. */
static void adopt(void *label, const struct pmtrace_mapped *mapped) {
    if (mapped->shared && !pmtrace_is_all(PMTRACE_PERSISTENT, mapped->start, mapped->length))
        pmtrace_begin_pool(*(const char **)label, mapped->start, mapped->length, mapped->name);
}

int pmem_is_pmem(const void *start, size_t length) {
    const char *label = PMTRACE_CALLER;
    bool known = pmtrace_is_all(PMTRACE_PERSISTENT, start, length) || (length > 0 && pmtrace_records(start, length));
    if (forced() == 1 && !known && !pmtrace_look_at_mapped(start, length, adopt, &label))
        pmtrace_warn("/proc/self/maps: %s; %zu bytes at %p are not recorded", strerror(errno), length, start);
    return forced() >= 0 ? forced() : known;
}
