#include "message.h"

#include <errno.h>
#include <stdarg.h>
#include <stdio.h>
#include <string.h>

enum { LONGEST = 4096 };
static _Thread_local char message[LONGEST];

const char *pmtrace_last_message(void) {
    return message;
}

void pmtrace_message(const char *format, ...) {
    va_list values;
    va_start(values, format);
    vsnprintf(message, sizeof message, format, values);
    va_end(values);
}

void pmtrace_message_of_errno(const char *format, ...) {
    int error = errno;
    va_list values;
    va_start(values, format);
    int length = vsnprintf(message, sizeof message, format, values);
    va_end(values);
    if (length >= 0 && length < LONGEST)
        snprintf(message + length, sizeof message - (size_t)length, ": %s", strerror(error));
    errno = error;
}

void pmtrace_warn(const char *format, ...) {
    int error = errno;
    char text[LONGEST];
    va_list values;
    va_start(values, format);
    vsnprintf(text, sizeof text, format, values);
    va_end(values);
    fprintf(stderr, "pmtrace: %s\n", text);
    errno = error;
}
