/* A log, recorded by the library in the place of libpmem: log POOL appends records, log check POOL looks at what a crash left. With WRONG
 * one fence saves a record and the log's end. */
#include <libpmem.h>

#include <stdint.h>
#include <stdio.h>
#include <string.h>

enum { RECORDS = 6, POOL_BYTES = 4096 };

struct record {
    uint64_t length, sum; /* of the text */
    unsigned char text[];
};

struct log {
    uint64_t end; /* how many bytes count */
    uint64_t none[7];
    unsigned char bytes[];
};

static uint64_t sum_of(const unsigned char *text, uint64_t length) {
    uint64_t sum = length + 7;
    for (uint64_t at = 0; at < length; at++)
        sum = 31 * sum + text[at];
    return sum;
}

static void append(struct log *log, const char *text, size_t length) {
    struct record *record = (struct record *)(log->bytes + log->end);
    record->length = length;
    record->sum = sum_of((const unsigned char *)text, length);
    pmem_memcpy_nodrain(record->text, text, length);
    pmem_flush(record, sizeof *record);
#ifndef WRONG
    pmem_drain();
#endif
    log->end += sizeof *record + length;
    pmem_persist(&log->end, sizeof log->end);
}

static int check(const struct log *log) {
    for (uint64_t at = 0; at < log->end;) {
        const struct record *record = (const struct record *)(log->bytes + at);
        if (record->length == 0 || record->length > 100 || record->sum != sum_of(record->text, record->length)) {
            printf("the record at %llu is torn\n", (unsigned long long)at);
            return 1;
        }
        at += sizeof *record + record->length;
    }
    return 0;
}

int main(int count, char **words) {
    size_t length;
    struct log *log = pmem_map_file(words[count - 1], count == 2 ? POOL_BYTES : 0, count == 2 ? PMEM_FILE_CREATE : 0, 0666, &length, NULL);
    static const char text[] = "a record of many words, of which each time some more are taken, to the last one";
    if (log == NULL)
        return 2;
    if (count == 3)
        return check(log);
    for (size_t number = 0; number < RECORDS; number++)
        append(log, text, 8 * (number + 2));
    return pmem_unmap(log, length);
}
