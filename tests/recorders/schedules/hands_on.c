/* A process stores to a pool, and one that it begins or becomes claims that all
 * is saved: hands_on KIND POOL. Kinds: fork, vfork, exec, spawn, shell, twice
 * (a child's child). `flushed` is as fork, but the line is flushed and not
 * fenced before, and the child fences; `saved` as exec, but all is saved
 * before. `claim` is what the others become. */
#define _GNU_SOURCE
#include "pmtrim_record.h"
#include <fcntl.h>
#include <immintrin.h>
#include <spawn.h>
#include <stdio.h>
#include <stdlib.h>
#include <string.h>
#include <sys/mman.h>
#include <sys/wait.h>
#include <unistd.h>

enum { LENGTH = 4096, STORED = 100, OWN = 200, CLAIMED = 256 };

extern char **environ;

static char *map(const char *path) {
    int file = open(path, O_RDWR | O_CREAT, 0666);
    if (file < 0 || ftruncate(file, LENGTH) != 0)
        exit(2);
    return mmap(NULL, LENGTH, PROT_READ | PROT_WRITE, MAP_SHARED, file, 0);
}

static void claim(char *pool) {
    pool[OWN] = 2;
    _mm_clwb(&pool[OWN]);
    _mm_sfence();
    PMTRIM_IS_PERSIST(pool, CLAIMED);
}

static int is(const char *kind, const char *name) {
    return strcmp(kind, name) == 0;
}

static void begin(const char *kind, char **words, char *pool) {
    char *again[] = {words[0], "claim", words[2], NULL}, command[512];
    snprintf(command, sizeof command, "%s claim %s; true", words[0], words[2]);
    if (is(kind, "exec") || is(kind, "saved")) {
        execv(words[0], again);
    } else if (is(kind, "spawn")) {
        pid_t child;
        posix_spawn(&child, words[0], NULL, NULL, again, environ);
    } else if (is(kind, "shell")) {
        if (system(command) != 0)
            exit(3);
    } else if (is(kind, "vfork")) {
        if (vfork() == 0) {
            execv(words[0], again);
            _exit(4);
        }
    } else if (fork() == 0) {
        if (!is(kind, "twice") || fork() == 0)
            claim(pool);
        else
            wait(NULL);
        _exit(0);
    }
    wait(NULL);
}

int main(int count, char **words) {
    if (count != 3)
        return 2;
    char *pool = map(words[2]);
    if (is(words[1], "claim")) {
        claim(pool);
        return 0;
    }
    pool[STORED] = 9;
    if (is(words[1], "flushed") || is(words[1], "saved"))
        _mm_clwb(&pool[STORED]);
    if (is(words[1], "saved"))
        _mm_sfence();
    begin(words[1], words, pool);
    return 0;
}
