/* What the system writes to a pool besides what a call is asked for: answers POOL. Each call has 64 bytes of the pool. */
#define _GNU_SOURCE
#include <errno.h>
#include <fcntl.h>
#include <pthread.h>
#include <stdio.h>
#include <stdlib.h>
#include <sys/mman.h>
#include <sys/socket.h>
#include <sys/syscall.h>
#include <sys/un.h>
#include <unistd.h>

static char *pool;

static void must(int right) {
    if (!right)
        exit(1);
}

static socklen_t *next_length(socklen_t length) {
    static int number;
    socklen_t *next = (socklen_t *)(pool + 4096 + 64 * number++);
    *next = length;
    return next;
}

/* Lengths of names and of options, which are shorter than the room for them. The names are the machine's, so they have the process's
 * number in them. */
static void ask_for_lengths(void) {
    struct sockaddr_un name = {.sun_family = AF_UNIX}, other;
    snprintf(name.sun_path + 1, 8, "%06xs", (unsigned)getpid() & 0xffffff);
    int listening = socket(AF_UNIX, SOCK_STREAM, 0), calling = socket(AF_UNIX, SOCK_STREAM, 0), size;
    must(bind(listening, (struct sockaddr *)&name, 10) == 0 && listen(listening, 1) == 0);
    must(connect(calling, (struct sockaddr *)&name, 10) == 0);
    must(accept(listening, (struct sockaddr *)&other, next_length(100)) >= 0);
    must(getsockname(listening, (struct sockaddr *)&other, next_length(100)) == 0);
    must(getpeername(calling, (struct sockaddr *)&other, next_length(100)) == 0);
    must(getsockopt(calling, SOL_SOCKET, SO_SNDBUF, &size, next_length(100)) == 0);
    int one = socket(AF_UNIX, SOCK_DGRAM, 0), two = socket(AF_UNIX, SOCK_DGRAM, 0);
    must(bind(one, (struct sockaddr *)&name, 9) == 0 && sendto(two, "text", 4, 0, (struct sockaddr *)&name, 9) == 4);
    must(recvfrom(one, pool + 8192, 64, 0, (struct sockaddr *)&other, next_length(100)) == 4);
    /* no name is asked for, and no length is told */
    must(sendto(two, "more", 4, 0, (struct sockaddr *)&name, 9) == 4);
    must(recvfrom(one, pool + 8192, 64, 0, NULL, next_length(100)) == 4);
    unsigned header[2] = {0x20080522, 0};
    must(syscall(SYS_capget, header, pool + 8256) == 0);
}

static void *end_with_locks(void *none) {
    (void)none;
    must(pthread_mutex_lock((pthread_mutex_t *)pool) == 0 && pthread_mutex_lock((pthread_mutex_t *)(pool + 128)) == 0);
    must(pthread_mutex_unlock((pthread_mutex_t *)pool) == 0 && pthread_mutex_lock((pthread_mutex_t *)(pool + 256)) == 0);
    return NULL;
}

/* Locks that their owner leaves taken: the kernel marks them. */
static void leave_locks(void) {
    pthread_mutexattr_t kind;
    pthread_t thread;
    must(pthread_mutexattr_init(&kind) == 0 && pthread_mutexattr_setrobust(&kind, PTHREAD_MUTEX_ROBUST) == 0);
    for (int at = 0; at < 512; at += 128)
        must(pthread_mutex_init((pthread_mutex_t *)(pool + at), &kind) == 0);
    must(pthread_create(&thread, NULL, end_with_locks, NULL) == 0 && pthread_join(thread, NULL) == 0);
    must(pthread_mutex_trylock((pthread_mutex_t *)pool) == 0 && pthread_mutex_trylock((pthread_mutex_t *)(pool + 128)) == EOWNERDEAD);
}

int main(int count, char **words) {
    int file = open(words[count - 1], O_RDWR | O_CREAT | O_TRUNC, 0666);
    must(file >= 0 && ftruncate(file, 12288) == 0);
    pool = mmap(NULL, 12288, PROT_READ | PROT_WRITE, MAP_SHARED, file, 0);
    must(pool != MAP_FAILED);
    ask_for_lengths();
    leave_locks();
    /* the program ends with two locks taken */
    return 0;
}
