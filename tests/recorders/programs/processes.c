/* processes TRACE CASE: children made by fork. What pmtrace_close answered is written to standard output. */
#define _DEFAULT_SOURCE 1
#include "pmtrace.h"

#include <signal.h>
#include <stdio.h>
#include <stdlib.h>
#include <sys/mman.h>
#include <sys/syscall.h>
#include <sys/wait.h>
#include <unistd.h>

enum { POOL = 4096, BIG = 65536 };

static uint64_t *pool;
static uint64_t small[8] __attribute__((aligned(64)));
static unsigned char big[BIG];

static int close_and_tell(void) {
    int answer = pmtrace_close();
    printf("closed %d\n", answer);
    return 0;
}

static void wait_for(pid_t child) {
    int status;
    if (child < 0 || waitpid(child, &status, 0) != child || status != 0)
        printf("the child ended wrongly\n");
}

/* A worker stores to the pool that it shares. */
static int store_in_child(void) {
    pid_t child = fork();
    if (child == 0) {
        pmtrace_store(pool[0], 1);
        pmtrace_persist(pool, 8);
        _exit(0);
    }
    wait_for(child);
    pmtrace_store(pool[1], 2);
    return close_and_tell();
}

/* It stores plainly, which the watch sees at the end at the latest. */
static int store_plainly_in_child(void) {
    pmtrace_watch();
    pid_t child = fork();
    if (child == 0) {
        pool[2] = 3;
        _exit(0);
    }
    wait_for(child);
    return close_and_tell();
}

/* A child that no handler of fork sees stores to the pool; the parent's lines are its own. */
static int store_in_unseen_child(void) {
    pid_t child = (pid_t)syscall(SYS_clone, SIGCHLD, NULL, NULL, NULL, NULL);
    for (int round = 0; round < 50; round++)
        pmtrace_store(pool[child == 0 ? 8 : 0], (uint64_t)round);
    if (child == 0)
        exit(0);
    wait_for(child);
    return close_and_tell();
}

/* It records a trace of its own, of another pool, which is longer than the one that its parent watches. */
static int record_in_child(const char *trace) {
    char name[4096];
    pmtrace_watch();
    pid_t child = fork();
    if (child == 0) {
        snprintf(name, sizeof name, "%s.child", trace);
        memset(big, 0x55, sizeof big);
        if (pmtrace_open(trace, big, sizeof big, 64) != -1 || pmtrace_open(name, big, sizeof big, 64) != 0)
            _exit(1);
        pmtrace_sfence();
        _exit(pmtrace_close() == 0 ? 0 : 1);
    }
    wait_for(child);
    pmtrace_store(small[1], 2);
    return close_and_tell();
}

int main(int argc, char **argv) {
    void *shared = mmap(NULL, POOL, PROT_READ | PROT_WRITE, MAP_SHARED | MAP_ANONYMOUS, -1, 0);
    bool own = argc == 3 && strcmp(argv[2], "own") == 0;
    pool = (uint64_t *)shared;
    if (argc != 3 || shared == MAP_FAILED ||
        pmtrace_open(argv[1], own ? small : pool, own ? sizeof small : (size_t)POOL, 64) != 0)
        return 2;
    if (own)
        return record_in_child(argv[1]);
    if (strcmp(argv[2], "unseen") == 0)
        return store_in_unseen_child();
    return strcmp(argv[2], "plain") == 0 ? store_plainly_in_child() : store_in_child();
}
