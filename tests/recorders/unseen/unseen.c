/* What a recorder hardly sees of what is done to a pool: unseen KIND POOL.
 *
 *     far     a write at 2 TiB of the first of three files, and a line of the
 * third that is saved: POOL0, POOL1 and POOL2 code    code in a pool that is
 * stored anew and called: the answers are written memory  a write to
 * /proc/self/mem frame   the frame of a signal handler on a stack in the pool
 *     other   process_vm_writev into the pool
 *     killed  is killed by its child, after a line that is saved and one that
 * is not
 */
#define _GNU_SOURCE
#include "pmtrim_record.h"
#include <fcntl.h>
#include <immintrin.h>
#include <signal.h>
#include <stdint.h>
#include <stdio.h>
#include <stdlib.h>
#include <string.h>
#include <sys/mman.h>
#include <sys/uio.h>
#include <unistd.h>

enum { LENGTH = 65536, PLACE = 500, STACK = 8192, STACK_BYTES = 16384 };

static char *map(const char *path, int *file) {
    *file = open(path, O_RDWR | O_CREAT | O_TRUNC, 0666);
    if (*file < 0 || ftruncate(*file, LENGTH) != 0)
        exit(2);
    return mmap(NULL, LENGTH, PROT_READ | PROT_WRITE, MAP_SHARED, *file, 0);
}

static void save(char *place, char value) {
    *place = value;
    _mm_clwb(place);
    _mm_sfence();
}

static void far(const char *path) {
    char *pools[3], name[512];
    int files[3];
    for (int at = 0; at < 3; at++) {
        snprintf(name, sizeof name, "%s%d", path, at);
        pools[at] = map(name, &files[at]);
    }
    save(pools[2] + 5, 7);
    if (ftruncate(files[0], 3l << 40) != 0 || pwrite(files[0], "x", 1, (2l << 40) + 5) != 1)
        exit(3);
    PMTRIM_IS_PERSIST(pools[2] + 5, 1);
}

static void call_code(char *pool) {
    unsigned char code[] = {0xb8, 0, 0, 0, 0, 0xc3};
    mprotect(pool, LENGTH, PROT_READ | PROT_WRITE | PROT_EXEC);
    for (code[1] = 1; code[1] < 4; code[1]++) {
        memcpy(pool, code, sizeof code);
        printf("%d", ((int (*)(void))(uintptr_t)pool)());
    }
    puts("");
}

static void handle(int signal) {
}

static void interrupt(char *pool) {
    stack_t stack = {.ss_sp = pool + STACK, .ss_size = STACK_BYTES};
    struct sigaction action = {.sa_handler = handle, .sa_flags = SA_ONSTACK};
    sigaltstack(&stack, NULL);
    sigaction(SIGUSR1, &action, NULL);
    raise(SIGUSR1);
}

int main(int count, char **words) {
    int file;
    if (count != 3)
        return 2;
    if (strcmp(words[1], "far") == 0) {
        far(words[2]);
        return 0;
    }
    char *pool = map(words[2], &file);
    if (strcmp(words[1], "code") == 0)
        call_code(pool);
    else if (strcmp(words[1], "memory") == 0) {
        int memory = open("/proc/self/mem", O_RDWR);
        return pwrite(memory, "mem", 3, (off_t)(uintptr_t)(pool + PLACE)) == 3 ? 0 : 4;
    } else if (strcmp(words[1], "frame") == 0)
        interrupt(pool);
    else if (strcmp(words[1], "other") == 0) {
        struct iovec from = {"bytes", 5}, to = {pool + PLACE, 5};
        return process_vm_writev(getpid(), &from, 1, &to, 1, 0) == 5 ? 0 : 5;
    } else {
        save(pool, 1);
        pool[PLACE] = 2;
        /* of its own SIGKILL Valgrind makes an end */
        if (fork() == 0)
            return kill(getppid(), SIGKILL);
        pause();
    }
    return 0;
}
