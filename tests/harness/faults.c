/* Preloaded under a program: refuses its requests for memory or for threads, fails its reads or writes, or cuts them short.
 *
 *   FAULT        memory, thread, read, write: what fails; interrupted: a read, by a signal; nothing_taken: a write that moves no byte
 *   FAULT_AT     the number of the call that fails, the calls of the kind being counted from 1
 *   FAULT_LATER  1: each later call of the kind fails too
 *   FAULT_PIECE  the most bytes that a read or a write moves
 *   FAULT_TELL   a descriptor, to which a byte is written for each call that failed
 */
#define _GNU_SOURCE
#include <dlfcn.h>
#include <errno.h>
#include <pthread.h>
#include <stdatomic.h>
#include <stdbool.h>
#include <stdlib.h>
#include <string.h>
#include <sys/syscall.h>
#include <unistd.h>

enum kind { NONE, MEMORY, THREAD, READ, WRITE };

typedef int start_thread(pthread_t *, const pthread_attr_t *, void *(*)(void *), void *);

void *__libc_malloc(size_t);
void *__libc_calloc(size_t, size_t);
void *__libc_realloc(void *, size_t);
void *__libc_memalign(size_t, size_t);

static enum kind failing = NONE;
static bool takes_nothing = false;
static int read_error = EIO;
static bool later = false;
static unsigned long at = 0;
static size_t piece = 0;
static int tell = -1;
static atomic_ulong calls;

/* The number that a variable of the environment gives, or that one where it is not set. */
static long number(const char *name, long otherwise) {
    const char *text = getenv(name);
    return text ? atol(text) : otherwise;
}

__attribute__((constructor)) static void read_environment(void) {
    const char *fault = getenv("FAULT");
    at = number("FAULT_AT", 0);
    later = number("FAULT_LATER", 0) != 0;
    piece = number("FAULT_PIECE", 0);
    tell = number("FAULT_TELL", -1);
    if (!fault)
        return;
    bool interrupted = !strcmp(fault, "interrupted");
    read_error = interrupted ? EINTR : EIO;
    takes_nothing = !strcmp(fault, "nothing_taken");
    if (!strcmp(fault, "memory"))
        failing = MEMORY;
    else if (!strcmp(fault, "thread"))
        failing = THREAD;
    else if (!strcmp(fault, "read") || interrupted)
        failing = READ;
    else if (!strcmp(fault, "write") || takes_nothing)
        failing = WRITE;
}

/* Counts a call of this kind, and tells whether it fails. */
static bool fails(enum kind kind) {
    if (kind != failing)
        return false;
    unsigned long call = atomic_fetch_add(&calls, 1) + 1;
    if (call != at && !(later && call > at))
        return false;
    syscall(SYS_write, tell, "!", 1);
    return true;
}

void *malloc(size_t size) {
    if (fails(MEMORY)) {
        errno = ENOMEM;
        return NULL;
    }
    return __libc_malloc(size);
}

void *calloc(size_t count, size_t size) {
    if (fails(MEMORY)) {
        errno = ENOMEM;
        return NULL;
    }
    return __libc_calloc(count, size);
}

void *realloc(void *block, size_t size) {
    if (fails(MEMORY)) {
        errno = ENOMEM;
        return NULL;
    }
    return __libc_realloc(block, size);
}

void *aligned_alloc(size_t alignment, size_t size) {
    if (fails(MEMORY)) {
        errno = ENOMEM;
        return NULL;
    }
    return __libc_memalign(alignment, size);
}

int posix_memalign(void **block, size_t alignment, size_t size) {
    if (fails(MEMORY))
        return ENOMEM;
    *block = __libc_memalign(alignment, size);
    return *block ? 0 : ENOMEM;
}

int pthread_create(pthread_t *thread, const pthread_attr_t *attributes, void *(*run)(void *), void *given) {
    if (fails(THREAD))
        return EAGAIN;
    start_thread *next = (start_thread *)dlsym(RTLD_NEXT, "pthread_create");
    return next(thread, attributes, run, given);
}

static size_t cut(size_t size) {
    return piece && size > piece ? piece : size;
}

ssize_t read(int descriptor, void *bytes, size_t size) {
    if (fails(READ)) {
        errno = read_error;
        return -1;
    }
    return syscall(SYS_read, descriptor, bytes, cut(size));
}

ssize_t write(int descriptor, const void *bytes, size_t size) {
    if (fails(WRITE)) {
        errno = EIO;
        return takes_nothing ? 0 : -1;
    }
    return syscall(SYS_write, descriptor, bytes, cut(size));
}
