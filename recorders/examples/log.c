/* A write-ahead log in a mapped file, to which four threads append. A record is saved before the log's end moves past it. In the
 * wrong version one fence is to save both, but the cache may write the new end back before the record.
 *
 *   gcc -pthread -I recorders/c -o log recorders/examples/log.c             the right version
 *   gcc -pthread -I recorders/c -o log recorders/examples/log.c -DWRONG     the wrong one
 *   ./log && pmtrim check log.trace
 */
#define PMTRACE_IMPLEMENTATION
#define PMTRACE_LABELS
#include "pmtrace.h"

#include <fcntl.h>
#include <pthread.h>
#include <stdio.h>
#include <sys/mman.h>
#include <unistd.h>

enum { THREADS = 4, RECORDS = 25, MOST_BYTES = 200, LOG_BYTES = 1 << 15, LINE = 64 };

struct record {
    uint32_t writer;
    uint32_t length; /* of the text */
    char text[MOST_BYTES];
};

struct log {
    uint64_t end; /* how many bytes of `records` count */
    _Alignas(LINE) unsigned char records[LOG_BYTES];
};

static pthread_mutex_t appending = PTHREAD_MUTEX_INITIALIZER;
static struct log *log_pool;

/* On persistent memory the first is followed by _mm_clwb of each line of the range, and _mm_sfence comes before the second. */
#define flush(start, length) pmtrace_clwb(start, length)
#define fence() pmtrace_sfence()

static void append(const struct record *record) {
    size_t length = offsetof(struct record, text) + record->length;
    pthread_mutex_lock(&appending);
    unsigned char *place = log_pool->records + log_pool->end;
    pmtrace_memcpy(place, record, length);
    flush(place, length);
#ifndef WRONG
    fence();
#endif
    pmtrace_store(log_pool->end, log_pool->end + length);
    flush(&log_pool->end, sizeof log_pool->end);
    fence();
    pmtrace_is_ordered_before(place, length, &log_pool->end, sizeof log_pool->end);
    pmtrace_is_persist(place, length);
    pthread_mutex_unlock(&appending);
}

static void *write_records(void *number) {
    struct record record = {.writer = (uint32_t)(uintptr_t)number};
    for (uint32_t count = 0; count < RECORDS; count++) {
        record.length = 8 * (count % (MOST_BYTES / 8)) + 8;
        memset(record.text, (int)('a' + count), record.length);
        append(&record);
    }
    return NULL;
}

int main(void) {
    pthread_t threads[THREADS];
    int file = open("log.pool", O_RDWR | O_CREAT | O_TRUNC, 0666);
    if (file < 0 || ftruncate(file, sizeof(struct log)) != 0) {
        perror("log.pool");
        return 1;
    }
    log_pool = mmap(NULL, sizeof *log_pool, PROT_READ | PROT_WRITE, MAP_SHARED, file, 0);
    if (log_pool == MAP_FAILED || pmtrace_open("log.trace", log_pool, sizeof *log_pool, LINE) != 0)
        return 1;
    for (uintptr_t number = 0; number < THREADS; number++)
        pthread_create(&threads[number], NULL, write_records, (void *)number);
    for (int number = 0; number < THREADS; number++)
        pthread_join(threads[number], NULL);
    return pmtrace_close() == 0 ? 0 : 1;
}
