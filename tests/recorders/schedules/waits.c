/* Processes and threads that wait where Valgrind does not see that they do: waits KIND POOL. `spawn`, `file` and `threads` end by
 * themselves, at once. */
#define _GNU_SOURCE
#include <fcntl.h>
#include <immintrin.h>
#include <pthread.h>
#include <sched.h>
#include <signal.h>
#include <spawn.h>
#include <stdio.h>
#include <stdlib.h>
#include <string.h>
#include <sys/mman.h>
#include <sys/prctl.h>
#include <sys/wait.h>
#include <unistd.h>

enum { LINE = 64, LENGTH = 4096 };

extern char **environ;

static const char *path;
static volatile long *pool;
static int ready[2];

static void save(int line) {
    pool[line * LINE / (int)sizeof *pool] = line + 1;
    _mm_clwb((void *)&pool[line * LINE / (int)sizeof *pool]);
    _mm_sfence();
}

/* popen, posix_spawn and system, each of which waits for its child by vfork. */
static void spawn(void) {
    char line[16] = "", *words[] = {"true", NULL};
    int status = -1;
    pid_t child;
    FILE *pipe = popen("echo one", "r");
    if (pipe == NULL || fgets(line, sizeof line, pipe) == NULL)
        exit(2);
    pclose(pipe);
    if (posix_spawnp(&child, "true", NULL, NULL, words, environ) == 0)
        waitpid(child, &status, 0);
    save(0);
    printf("%.3s %d %d\n", line, WEXITSTATUS(status), WEXITSTATUS(system("exit 3")));
}

/* Takes a lock of an open file (F_OFD_SETLK) by an opening of its own, says so, and keeps it for a while. */
static void *hold(void *unused) {
    struct flock lock = {.l_type = F_WRLCK};
    int file = open(path, O_RDWR);
    if (fcntl(file, F_OFD_SETLK, &lock) != 0 || write(ready[1], "g", 1) != 1)
        exit(3);
    usleep(200000);
    save(1);
    lock.l_type = F_UNLCK;
    fcntl(file, F_OFD_SETLK, &lock);
    return NULL;
}

static void wait_for_lock(int file) {
    struct flock lock = {.l_type = F_WRLCK};
    char byte;
    if (read(ready[0], &byte, 1) != 1 || fcntl(file, F_OFD_SETLKW, &lock) != 0)
        exit(4);
    save(2);
    puts("has it");
}

static void wait_for_child(int file) {
    if (fork() == 0) {
        hold(NULL);
        _exit(0);
    }
    wait_for_lock(file);
    wait(NULL);
}

static void wait_for_thread(int file) {
    pthread_t other;
    pthread_create(&other, NULL, hold, NULL);
    wait_for_lock(file);
    pthread_join(other, NULL);
}

static int pause_for_ever(void *unused) {
    prctl(PR_SET_PDEATHSIG, SIGKILL);
    while (pause() != 0)
        continue;
    return 0;
}

/* A thread waits for a child of its own that goes on for ever, while another one would run. */
static void wait_for_ever(void) {
    static char stack[65536];
    pthread_t other;
    pthread_create(&other, NULL, hold, NULL);
    clone(pause_for_ever, stack + sizeof stack, CLONE_VFORK | SIGCHLD, NULL);
    pthread_join(other, NULL);
}

/* A child runs on and on, until a signal stops it; its parent writes its number, and stores on and on. */
static void be_stopped(void) {
    volatile long turns = 0;
    pid_t child = fork();
    while (child == 0)
        turns++;
    printf("%d\n", child);
    fflush(stdout);
    for (;;) {
        save(3);
        usleep(1000);
    }
}

int main(int count, char **words) {
    int file = count == 3 ? open(words[2], O_RDWR | O_CREAT | O_TRUNC, 0666) : -1;
    if (file < 0 || ftruncate(file, LENGTH) != 0 || pipe(ready) != 0)
        return 2;
    path = words[2];
    pool = mmap(NULL, LENGTH, PROT_READ | PROT_WRITE, MAP_SHARED, file, 0);
    if (strcmp(words[1], "spawn") == 0)
        spawn();
    else if (strcmp(words[1], "file") == 0)
        wait_for_child(file);
    else if (strcmp(words[1], "threads") == 0)
        wait_for_thread(file);
    else if (strcmp(words[1], "asleep") == 0)
        wait_for_ever();
    else
        be_stopped();
    return 0;
}
