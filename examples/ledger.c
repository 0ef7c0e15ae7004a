/* A ledger in a mapped file: records, and how many of them count. It saves both by flushes of cache lines and fences, and makes two
 * mistakes, which docs/GUIDE.md finds and fixes.
 *
 *   gcc -g -mclwb -I recorders/valgrind -o ledger examples/ledger.c
 *   ./ledger ledger.pool 3        writes three records, on a processor that has clwb, or under pmtrim-record
 *   ./ledger ledger.pool          reads them: the status is 1 if one that counts is not whole
 */
#include "pmtrim_record.h" /* claims, which do nothing outside of pmtrim-record */

#include <fcntl.h>
#include <immintrin.h>
#include <stdint.h>
#include <stdio.h>
#include <stdlib.h>
#include <sys/mman.h>
#include <unistd.h>

enum { RECORDS = 8, AMOUNTS = 15, LINE = 64 };

struct record {
    _Alignas(LINE) uint64_t number;
    uint64_t amounts[AMOUNTS];
};

struct ledger {
    uint64_t count;
    struct record records[RECORDS];
};

static void persist(const void *start, size_t length) {
    for (uintptr_t line = (uintptr_t)start / LINE * LINE; line < (uintptr_t)start + length; line += LINE)
        _mm_clwb((void *)line);
    _mm_sfence();
}

static void append(struct ledger *ledger, uint64_t number) {
    struct record *record = &ledger->records[ledger->count];
    record->number = number;
    for (int amount = 0; amount < AMOUNTS; amount++)
        record->amounts[amount] = number;
    ledger->count++;
    persist(record, sizeof record);
    persist(&ledger->count, sizeof ledger->count);
}

/* Each amount of a record that counts is the record's number. */
static int read_all(const struct ledger *ledger) {
    for (uint64_t place = 0; place < ledger->count; place++)
        for (int amount = 0; amount < AMOUNTS; amount++)
            if (ledger->records[place].amounts[amount] != place + 1) {
                printf("record %llu is not whole\n", (unsigned long long)place + 1);
                return 1;
            }
    return 0;
}

int main(int count, char **words) {
    int file = count < 2 ? -1 : open(words[1], O_RDWR | O_CREAT, 0666);
    if (file < 0 || ftruncate(file, sizeof(struct ledger)) != 0) {
        perror("ledger POOL [RECORDS]");
        return 2;
    }
    struct ledger *ledger = mmap(NULL, sizeof *ledger, PROT_READ | PROT_WRITE, MAP_SHARED, file, 0);
    if (ledger == MAP_FAILED)
        return 2;
    for (uint64_t number = 1; count > 2 && number <= strtoull(words[2], NULL, 10) && ledger->count < RECORDS; number++)
        append(ledger, number);
    return read_all(ledger);
}
