#include "message.h"
#include "pmem2.h"

#include <errno.h>
#include <stdarg.h>
#include <stdio.h>
#include <stdlib.h>

int pmtrace_fail(int error, const char *format, ...) {
    char text[512];
    va_list values;
    va_start(values, format);
    vsnprintf(text, sizeof text, format, values);
    va_end(values);
    pmtrace_message("%s", text);
    return error;
}

int pmtrace_fail_by_errno(const char *what) {
    pmtrace_message_of_errno("%s", what);
    return -errno;
}

int pmtrace_new(void **object, size_t size) {
    *object = calloc(1, size);
    return *object != NULL ? 0 : pmtrace_fail_by_errno("calloc");
}

const char *pmem2_errormsg(void) {
    return pmtrace_last_message();
}

int pmem2_err_to_errno(int error) {
    if (error == PMEM2_E_NOSUPP)
        return ENOTSUP;
    return error <= PMEM2_E_UNKNOWN || error > 0 ? EINVAL : -error;
}

void pmem2_perror(const char *format, ...) {
    va_list values;
    va_start(values, format);
    vfprintf(stderr, format, values);
    va_end(values);
    fprintf(stderr, ": %s\n", pmem2_errormsg());
}
