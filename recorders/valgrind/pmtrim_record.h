/* pmtrim_record.h: what a program tells pmtrim-record. For C and C++; it needs <valgrind/valgrind.h> of Debian's package valgrind
 * to be built, and nothing to be run. Outside pmtrim-record each of these does nothing, and costs a few instructions.
 *
 *     PMTRIM_IS_PERSIST(node, sizeof *node);                              a crash now keeps the last stores to these bytes
 *     PMTRIM_IS_ORDERED_BEFORE(node, sizeof *node, &root->head, 8);       no crash up to now keeps any of those to the second
 *                                                                         range without all of those to the first
 *     PMTRIM_FILE_IS_PERSIST(log, at, length);                            the same of bytes of files that are written and not mapped, by
 *     PMTRIM_FILE_IS_ORDERED_BEFORE(log, at, length, data, where, size);  descriptor, offset and length (pmtrim-record --file)
 *     PMTRIM_START();    the trace begins here: what was recorded before is forgotten, as the formatting of a pool, but for what
 *                        is not safe yet. After PMTRIM_STOP the trace goes on
 *     PMTRIM_STOP();     nothing is recorded from here on
 *
 * A range longer than 4096 bytes makes several assertions.
 *
 * This header is under the project's licence, as the recorders for C are, and not under that of the tool. */
#ifndef PMTRIM_RECORD_H
#define PMTRIM_RECORD_H

#include <valgrind/valgrind.h>

#define PMTRIM_REQUEST_(number) (VG_USERREQ_TOOL_BASE('P', 'T') + (number))
#define PMTRIM_REQUEST_IS_PERSIST PMTRIM_REQUEST_(0)
#define PMTRIM_REQUEST_IS_ORDERED_BEFORE PMTRIM_REQUEST_(1)
#define PMTRIM_REQUEST_START PMTRIM_REQUEST_(2)
#define PMTRIM_REQUEST_STOP PMTRIM_REQUEST_(3)
#define PMTRIM_REQUEST_FILE_IS_PERSIST PMTRIM_REQUEST_(4)
#define PMTRIM_REQUEST_FILE_IS_ORDERED_BEFORE PMTRIM_REQUEST_(5)

#define PMTRIM_IS_PERSIST(start, length) VALGRIND_DO_CLIENT_REQUEST_STMT(PMTRIM_REQUEST_IS_PERSIST, start, length, 0, 0, 0)
#define PMTRIM_IS_ORDERED_BEFORE(start, length, later, later_length)                                                                   \
    VALGRIND_DO_CLIENT_REQUEST_STMT(PMTRIM_REQUEST_IS_ORDERED_BEFORE, start, length, later, later_length, 0)
#define PMTRIM_FILE_IS_PERSIST(descriptor, offset, length)                                                                             \
    VALGRIND_DO_CLIENT_REQUEST_STMT(PMTRIM_REQUEST_FILE_IS_PERSIST, descriptor, offset, length, 0, 0)
#define PMTRIM_FILE_IS_ORDERED_BEFORE(descriptor, offset, length, later, later_offset, later_length)                                   \
    do {                                                                                                                               \
        const unsigned long long pmtrim_ranges_[6] = {(unsigned long long)(descriptor), (unsigned long long)(offset),                  \
                                                      (unsigned long long)(length),     (unsigned long long)(later),                   \
                                                      (unsigned long long)(later_offset), (unsigned long long)(later_length)};         \
        VALGRIND_DO_CLIENT_REQUEST_STMT(PMTRIM_REQUEST_FILE_IS_ORDERED_BEFORE, pmtrim_ranges_, 0, 0, 0, 0);                            \
    } while (0)
#define PMTRIM_START() VALGRIND_DO_CLIENT_REQUEST_STMT(PMTRIM_REQUEST_START, 0, 0, 0, 0, 0)
#define PMTRIM_STOP() VALGRIND_DO_CLIENT_REQUEST_STMT(PMTRIM_REQUEST_STOP, 0, 0, 0, 0, 0)

#endif
