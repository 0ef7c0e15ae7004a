/* leaving TRACE CASE: threads that leave a call of the recorder, or the program, in other ways than by return. What pmtrace_close
 * answered is written to standard output. */
#define _DEFAULT_SOURCE 1
#include "pmtrace.h"

#include <pthread.h>
#include <setjmp.h>
#include <signal.h>
#include <stdio.h>
#include <stdlib.h>
#include <sys/mman.h>
#include <unistd.h>

enum { PAGE = 4096 };

static unsigned char *pool; /* two pages, of which the second is read only */
static sigjmp_buf left;

static int close_and_tell(void) {
    int answer = pmtrace_close();
    printf("closed %d\n", answer);
    return 0;
}

static void *store_for_ever(void *asynchronous) {
    int before;
    if (asynchronous != NULL)
        pthread_setcanceltype(PTHREAD_CANCEL_ASYNCHRONOUS, &before);
    for (uint64_t value = 0;; value++) {
        pmtrace_store(((uint64_t *)(void *)pool)[1], value);
        pthread_testcancel();
        if (value > 10000) /* or a trace could be full before a busy machine cancels */
            usleep(1000);
    }
    return NULL;
}

/* A thread is cancelled fifty times, each time after it has stored; its calls are whole, and the lock is free. */
static int cancel(void *asynchronous) {
    volatile uint64_t *stored = &((uint64_t *)(void *)pool)[1];
    for (int round = 0; round < 50; round++) {
        pthread_t thread;
        uint64_t before = *stored;
        pthread_create(&thread, NULL, store_for_ever, asynchronous);
        while (*stored == before)
            usleep(100);
        usleep(1000);
        pthread_cancel(thread);
        pthread_join(thread, NULL);
    }
    alarm(20);
    pmtrace_persist(pool, 16);
    return close_and_tell();
}

static void jump(int number) {
    siglongjmp(left, number);
}

/* A store faults, and the program goes on elsewhere. */
static void *store_and_jump(void *none) {
    if (sigsetjmp(left, 1) == 0)
        pmtrace_store(pool[PAGE], 1);
    return none;
}

static int fault(bool in_thread) {
    pthread_t thread;
    signal(SIGSEGV, jump);
    pmtrace_store(pool[0], 1);
    if (in_thread) {
        pthread_create(&thread, NULL, store_and_jump, NULL);
        pthread_join(thread, NULL);
    } else {
        store_and_jump(NULL);
    }
    alarm(60);
    pmtrace_store(pool[1], 2);
    pmtrace_persist(pool, 2);
    if (pool[1] != 2)
        return 1;
    close_and_tell();
    printf("opened %d\n", pmtrace_open("none.trace", pool, PAGE, 64));
    return 0;
}

static void exit_well(void) {
    quick_exit(3);
}

static int run(const char *name) {
    if (strcmp(name, "cancel") == 0)
        return cancel(NULL);
    if (strcmp(name, "cancel-at-once") == 0)
        return cancel(pool);
    if (strcmp(name, "fault") == 0)
        return fault(false);
    if (strcmp(name, "fault-in-thread") == 0)
        return fault(true);
    pmtrace_store(pool[0], 1);
    if (strcmp(name, "quick-exit") == 0)
        exit_well();
    if (strcmp(name, "kill") == 0)
        raise(SIGKILL);
    if (strcmp(name, "leave") == 0)
        _exit(0);
    return 2;
}

int main(int argc, char **argv) {
    pool = (unsigned char *)mmap(NULL, 2 * PAGE, PROT_READ | PROT_WRITE, MAP_PRIVATE | MAP_ANONYMOUS, -1, 0);
    if (argc != 3 || mprotect(pool + PAGE, PAGE, PROT_READ) != 0 || pmtrace_open(argv[1], pool, 2 * PAGE, 64) != 0)
        return 2;
    return run(argv[2]);
}
