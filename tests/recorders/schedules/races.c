/* Threads that race, each natively wrong, and ones that don't: races KIND POOL
 * TIMES. What went wrong is counted and written.
 *
 *     lost    two threads append to a log without a lock: how many places were
 * given twice reader  the mark is stored before its record, and a thread that
 * only loads looks between: how often it saw no record stack   nodes are taken
 * off a stack by compare and swap without a count (ABA): how often one was in
 * two hands claim   as reader, and the reader claims that a mark which it saw
 * is saved copied  as lost, but records are copied by rep movsb: how many
 * records have bytes of both threads right   a lock of each kind, and a flag
 * that is handed on; each claim holds: how many sums are wrong crowd   sixteen
 * threads that send each other signals, under one lock: how many sums are wrong
 */
#define _GNU_SOURCE
#include "pmtrim_record.h"
#include <fcntl.h>
#include <immintrin.h>
#include <pthread.h>
#include <sched.h>
#include <signal.h>
#include <stdint.h>
#include <stdio.h>
#include <stdlib.h>
#include <string.h>
#include <sys/mman.h>
#include <unistd.h>

enum { LINE = 64, LENGTH = 1 << 20, RECORDS = 2048, NODES = 5, CROWD = 16, RECORD = 32 };

typedef volatile struct {
    _Alignas(LINE) long count;
    _Alignas(LINE) long mark;
    _Alignas(LINE) long record;
    _Alignas(LINE) long seen;
    _Alignas(LINE) long copy[RECORD / sizeof(long)];
    struct {
        _Alignas(LINE) long next;
        long hands;
    } nodes[NODES];
    _Alignas(LINE) long records[RECORDS];
} Pool;

static Pool *pool;
static long times, wrong, passed_on, claims;
static pthread_mutex_t lock = PTHREAD_MUTEX_INITIALIZER;
static pthread_rwlock_t shared = PTHREAD_RWLOCK_INITIALIZER;
static pthread_spinlock_t spun;
static pthread_t made[CROWD];
static pthread_barrier_t all_done;
static long signals;

static void save(volatile void *start, size_t length) {
    for (uintptr_t at = (uintptr_t)start & ~(uintptr_t)(LINE - 1); at < (uintptr_t)start + length; at += LINE)
        _mm_clwb((void *)at);
    _mm_sfence();
}

static void is_wrong(int it_is) {
    if (it_is)
        __atomic_fetch_add(&wrong, 1, __ATOMIC_SEQ_CST);
}

static void *append(void *self) {
    for (long turn = 0; turn < times; turn++) {
        long at = pool->count;
        pool->count = at + 1;
        is_wrong(__atomic_exchange_n(&pool->records[at], (long)self + 1, __ATOMIC_SEQ_CST) != 0);
        save(&pool->records[at], sizeof pool->records[at]);
        save(&pool->count, sizeof pool->count);
    }
    return NULL;
}

static void *publish_or_look(void *self) {
    for (long turn = 1; turn <= times; turn++) {
        if (self == NULL) {
            pool->mark = turn;
            pool->record = turn;
            save(&pool->mark, 2 * LINE);
        } else {
            long mark = pool->mark, record = pool->record;
            is_wrong(record < mark);
            pool->seen = mark;
            if (claims)
                PMTRIM_IS_PERSIST(&pool->mark, sizeof pool->mark);
            save(&pool->seen, sizeof pool->seen);
        }
    }
    return NULL;
}

static long pop(void) {
    long top, next;
    do {
        top = pool->mark;
        if (top == 0)
            return 0;
        next = pool->nodes[top].next;
    } while (!__sync_bool_compare_and_swap(&pool->mark, top, next));
    is_wrong(__atomic_fetch_add(&pool->nodes[top].hands, 1, __ATOMIC_SEQ_CST) != 0);
    return top;
}

static void push(long node) {
    long top;
    if (node == 0)
        return;
    __atomic_fetch_sub(&pool->nodes[node].hands, 1, __ATOMIC_SEQ_CST);
    do {
        top = pool->mark;
        pool->nodes[node].next = top;
    } while (!__sync_bool_compare_and_swap(&pool->mark, top, node));
}

static void *take_two(void *self) {
    for (long turn = 0; turn < times; turn++) {
        long one = pop(), other = pop();
        push(one);
        push(other);
    }
    return NULL;
}

static void copy_by_steps(volatile void *to, const void *from, size_t length) {
    __asm__ volatile("rep movsb" : "+D"(to), "+S"(from), "+c"(length) : : "memory");
}

static void *copy(void *self) {
    unsigned char own[RECORD], other[RECORD];
    memset(own, self == NULL ? 'a' : 'b', sizeof own);
    for (long turn = 0; turn < times; turn++) {
        copy_by_steps(pool->copy, own, sizeof own);
        copy_by_steps(other, (const void *)pool->copy, sizeof other);
        save(pool->copy, sizeof pool->copy);
        is_wrong(memcmp(other, other + 1, sizeof other - 1) != 0);
    }
    return NULL;
}

static void add_under_lock(void) {
    pthread_mutex_lock(&lock);
    long at = pool->count;
    pool->records[at % RECORDS] = at + 1;
    save(&pool->records[at % RECORDS], sizeof pool->records[0]);
    pool->count = at + 1;
    save(&pool->count, sizeof pool->count);
    PMTRIM_IS_PERSIST(&pool->records[at % RECORDS], sizeof pool->records[0]);
    PMTRIM_IS_ORDERED_BEFORE(&pool->records[at % RECORDS], sizeof pool->records[0], &pool->count, sizeof pool->count);
    pthread_mutex_unlock(&lock);
}

static void add_by_other_locks(void) {
    pthread_spin_lock(&spun);
    pool->seen++;
    save(&pool->seen, sizeof pool->seen);
    pthread_spin_unlock(&spun);
    pthread_rwlock_wrlock(&shared);
    pool->record++;
    save(&pool->record, sizeof pool->record);
    pool->mark++;
    save(&pool->mark, sizeof pool->mark);
    pthread_rwlock_unlock(&shared);
    pthread_rwlock_rdlock(&shared);
    is_wrong(pool->record != pool->mark);
    pthread_rwlock_unlock(&shared);
    __atomic_fetch_add(&pool->copy[0], 1, __ATOMIC_SEQ_CST);
}

static void *by_locks(void *self) {
    for (long turn = 0; turn < times; turn++) {
        add_under_lock();
        add_by_other_locks();
        if (turn % 8 == 0) {
            while (__atomic_load_n(&passed_on, __ATOMIC_ACQUIRE) != (long)self)
                continue;
            __atomic_store_n(&passed_on, 1 - (long)self, __ATOMIC_RELEASE);
        }
    }
    return NULL;
}

static void interrupt(int signal) {
    __atomic_fetch_add(&signals, 1, __ATOMIC_SEQ_CST);
    __atomic_fetch_add(&pool->copy[1], 1, __ATOMIC_SEQ_CST);
}

static void *in_crowd(void *self) {
    for (long turn = 0; turn < times; turn++) {
        add_under_lock();
        while (__atomic_load_n(&made[((long)self + 1) % CROWD], __ATOMIC_ACQUIRE) == 0)
            sched_yield();
        if (turn % 4 == (long)self % 4)
            pthread_kill(made[((long)self + 1) % CROWD], SIGUSR1);
    }
    pthread_barrier_wait(&all_done);
    return NULL;
}

static void run(long threads, void *(*of_thread)(void *)) {
    for (long number = 0; number < threads; number++)
        pthread_create(&made[number], NULL, of_thread, (void *)number);
    for (long number = 0; number < threads; number++)
        pthread_join(made[number], NULL);
}

int main(int count, char **words) {
    int file = count == 4 ? open(words[2], O_RDWR | O_CREAT | O_TRUNC, 0666) : -1;
    if (file < 0 || ftruncate(file, LENGTH) != 0)
        return 2;
    pool = mmap(NULL, LENGTH, PROT_READ | PROT_WRITE, MAP_SHARED, file, 0);
    times = atol(words[3]);
    claims = strcmp(words[1], "claim") == 0;
    pthread_spin_init(&spun, PTHREAD_PROCESS_PRIVATE);
    signal(SIGUSR1, interrupt);
    if (strcmp(words[1], "lost") == 0)
        run(2, append);
    else if (strcmp(words[1], "reader") == 0 || strcmp(words[1], "claim") == 0)
        run(2, publish_or_look);
    else if (strcmp(words[1], "copied") == 0)
        run(2, copy);
    else if (strcmp(words[1], "stack") == 0) {
        for (long node = NODES - 1; node > 0; node--) {
            pool->nodes[node].hands = 1;
            push(node);
        }
        run(2, take_two);
    } else if (strcmp(words[1], "right") == 0) {
        run(2, by_locks);
        is_wrong(pool->count != 2 * times || pool->seen != 2 * times || pool->mark != 2 * times || pool->copy[0] != 2 * times);
    } else {
        pthread_barrier_init(&all_done, NULL, CROWD);
        run(CROWD, in_crowd);
        is_wrong(pool->count != CROWD * times || signals != pool->copy[1]);
    }
    printf("%ld\n", wrong);
    return 0;
}
