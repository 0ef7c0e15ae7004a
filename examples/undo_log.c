/* Accounts in a mapped file. A transfer saves each balance in an undo log before it changes it, and is done when the log is empty again.
 * Each store is flushed and fenced in time, and each claim holds. But the recovery undoes the entries from the first to the last: where
 * a transfer changed an account twice, the account ends at a balance from its middle. docs/REPLAY.md finds that, step by step.
 *
 *   gcc -pthread -I recorders/c -o undo_log examples/undo_log.c               the wrong version
 *   gcc -pthread -I recorders/c -o undo_log examples/undo_log.c -DMENDED      the right one
 *   PMTRACE_BASE=1 ./undo_log accounts.pool
 *   pmtrim-replay undo_log.trace -- ./undo_log recover {}
 */
#define PMTRACE_IMPLEMENTATION
#define PMTRACE_LABELS
#include "pmtrace.h"

#include <fcntl.h>
#include <stdio.h>
#include <string.h>
#include <sys/mman.h>
#include <unistd.h>

enum { ACCOUNTS = 8, ENTRIES = 4, START = 100, BANK = 7, LINE = 64 };

struct entry {
    uint64_t account;
    uint64_t balance; /* before it was changed */
};

struct accounts {
    _Alignas(LINE) uint64_t balances[ACCOUNTS];
    _Alignas(LINE) uint64_t entries; /* how many of the log count */
    _Alignas(LINE) struct entry log[ENTRIES];
};

static struct accounts *pool;

/* On persistent memory _mm_clwb of each line of the range and _mm_sfence stand beside it. */
#define persist(start, length) pmtrace_persist(start, length)

static void save_balance(uint64_t account) {
    struct entry *entry = &pool->log[pool->entries];
    pmtrace_store(*entry, ((struct entry){account, pool->balances[account]}));
    persist(entry, sizeof *entry);
    pmtrace_store(pool->entries, pool->entries + 1);
    persist(&pool->entries, sizeof pool->entries);
    pmtrace_is_ordered_before(entry, sizeof *entry, &pool->entries, sizeof pool->entries);
}

static void change(uint64_t account, int64_t by) {
    save_balance(account);
    pmtrace_store(pool->balances[account], pool->balances[account] + (uint64_t)by);
    pmtrace_is_ordered_before(&pool->entries, sizeof pool->entries, &pool->balances[account], sizeof *pool->balances);
}

static void clear_log(void) {
    persist(pool->balances, sizeof pool->balances);
    pmtrace_store(pool->entries, 0);
    persist(&pool->entries, sizeof pool->entries);
}

/* The fee comes from the same account as the amount. */
static void transfer(uint64_t from, uint64_t to, int64_t amount, int64_t fee) {
    change(from, -amount);
    change(to, amount);
    change(from, -fee);
    change(BANK, fee);
    clear_log();
    pmtrace_is_persist(pool->balances, sizeof pool->balances);
}

static void recover(void) {
#ifdef MENDED
    for (uint64_t number = pool->entries; number-- > 0;)
#else
    for (uint64_t number = 0; number < pool->entries; number++)
#endif
        pmtrace_store(pool->balances[pool->log[number].account], pool->log[number].balance);
    clear_log();
}

/* What a transfer and a recovery both keep: the sum of all balances. */
static int check(void) {
    uint64_t sum = 0;
    for (int account = 0; account < ACCOUNTS; account++)
        sum += pool->balances[account];
    if (sum != ACCOUNTS * START)
        printf("the balances add up to %llu, not %d\n", (unsigned long long)sum, ACCOUNTS * START);
    return sum == ACCOUNTS * START ? 0 : 1;
}

static bool map(const char *name, int flags) {
    int file = open(name, O_RDWR | flags, 0666);
    if (file < 0 || (flags != 0 && ftruncate(file, sizeof *pool) != 0))
        return false;
    pool = mmap(NULL, sizeof *pool, PROT_READ | PROT_WRITE, MAP_SHARED, file, 0);
    return pool != MAP_FAILED;
}

int main(int count, char **words) {
    bool recovers = count == 3 && strcmp(words[1], "recover") == 0;
    if (count < 2 || !map(words[count - 1], recovers ? 0 : O_CREAT | O_TRUNC)) {
        perror("undo_log [recover] POOL");
        return 2;
    }
    if (recovers) {
        recover();
        return check();
    }
    for (int account = 0; account < ACCOUNTS; account++)
        pool->balances[account] = START;
    if (pmtrace_open("undo_log.trace", pool, sizeof *pool, LINE) != 0)
        return 2;
    transfer(0, 1, 30, 1);
    transfer(2, 0, 50, 1);
    return pmtrace_close() == 0 ? check() : 2;
}
