/* Ways to end, and to have too much: ends CASE POOL. */
#define _GNU_SOURCE
#include <fcntl.h>
#include <pthread.h>
#include <signal.h>
#include <stdio.h>
#include <stdlib.h>
#include <string.h>
#include <sys/mman.h>
#include <sys/wait.h>
#include <unistd.h>

static volatile unsigned long *pool;

static void save_value(int word, unsigned long value) {
    pool[word] = value;
    __asm__ volatile("clwb (%0)\n sfence" : : "r"(&pool[word]) : "memory");
}

static void save(int word) {
    save_value(word, (unsigned long)word + 1);
}

/* Without a fence: the number of the thread stays its own. */
static void *leave_open(void *word) {
    pool[(long)word] = (unsigned long)word;
    __asm__ volatile("clwb (%0)" : : "r"(&pool[(long)word]) : "memory");
    return NULL;
}

static void child(char **words) {
    pid_t begun = fork();
    if (begun == 0) {
        save(8);
        if (words[1][0] == 'e')
            execl(words[0], words[0], "saves", words[2], NULL);
        _exit(0);
    }
    waitpid(begun, NULL, 0);
    save(16);
}

int main(int count, char **words) {
    const char *what = words[1];
    int file = open(words[2], O_RDWR | O_CREAT, 0666);
    if (count != 3 || file < 0 || ftruncate(file, 65536) != 0)
        return 9;
    pool = mmap(NULL, 65536, PROT_READ | PROT_WRITE, MAP_SHARED, file, 0);
    save(0);
    if (strcmp(what, "saves") == 0)
        return 3;
    if (strcmp(what, "abort") == 0)
        abort();
    if (strcmp(what, "segfault") == 0)
        *(volatile int *)8 = 1;
    if (strcmp(what, "exit") == 0)
        _exit(4);
    if (strcmp(what, "waits") == 0) {
        puts("waits");
        fflush(stdout);
        for (unsigned long number = 1; number <= 300000; number++)
            save_value((int)(number % 4000) + 1, number);
        pause();
    }
    if (strcmp(what, "avx512") == 0)
        __asm__ volatile(".byte 0x62, 0xf1, 0x7c, 0x48, 0x11, 0x07" : : "D"(pool) : "memory");
    if (strcmp(what, "becomes") == 0)
        execl(words[0], words[0], "saves", words[2], NULL);
    if (strcmp(what, "fork") == 0 || strcmp(what, "exec") == 0)
        child(words);
    if (strcmp(what, "threads") == 0)
        for (long number = 1; number < 300; number++) {
            pthread_t begun;
            if (pthread_create(&begun, NULL, leave_open, (void *)number) != 0)
                return 8;
            pthread_join(begun, NULL);
        }
    if (strcmp(what, "long") == 0)
        for (unsigned long number = 1; number <= 350000; number++)
            save_value((int)(number % 4000) + 1, number);
    if (strcmp(what, "events") == 0)
        for (int round = 0; round < 125; round++)
            for (int word = 0; word < 8192; word++)
                pool[word] = (unsigned long)round;
    return 0;
}
