/* Threads that load lines of their own from a pool all the time, and store now
 * and then: loads POOL THREADS. */
#include <fcntl.h>
#include <pthread.h>
#include <stdlib.h>
#include <sys/mman.h>
#include <unistd.h>

enum { TIMES = 3000000, WORDS = 4096, MOST_THREADS = 4 };

static volatile long (*pool)[WORDS];

static void *load(void *self) {
    volatile long *words = pool[(long)self];
    long sum = 0;
    for (long at = 0; at < TIMES; at++) {
        sum += words[at * 8 % WORDS] + words[at * 9 % WORDS];
        if (at % 16 == 0)
            words[at % WORDS] = sum;
    }
    return NULL;
}

int main(int count, char **words) {
    pthread_t threads[MOST_THREADS];
    long many = count == 3 ? atol(words[2]) : 0;
    int file = count == 3 ? open(words[1], O_RDWR | O_CREAT | O_TRUNC, 0666) : -1;
    if (file < 0 || many > MOST_THREADS || ftruncate(file, MOST_THREADS * sizeof *pool) != 0)
        return 2;
    pool = mmap(NULL, MOST_THREADS * sizeof *pool, PROT_READ | PROT_WRITE, MAP_SHARED, file, 0);
    if (many == 1)
        load(NULL);
    for (long at = 0; many > 1 && at < many; at++)
        pthread_create(&threads[at], NULL, load, (void *)at);
    for (long at = 0; many > 1 && at < many; at++)
        pthread_join(threads[at], NULL);
    return 0;
}
