/* pools TRACE FILE CASE: pools that are files named FILE.0 and so on. What pmtrace_close answered is written to standard output. */
#include "pmtrace.h"

#include <fcntl.h>
#include <stdio.h>
#include <stdlib.h>
#include <sys/file.h>
#include <sys/mman.h>
#include <sys/wait.h>
#include <unistd.h>

enum { PAGE = 4096 };

static const char *trace, *prefix;

#define CHECK(claim) \
    do { \
        if (!(claim)) \
            exit(__LINE__ % 100 + 100); \
    } while (0)

static int close_and_tell(void) {
    int answer = pmtrace_close();
    printf("closed %d\n", answer);
    return 0;
}

/* Opens the pool's file, and makes it as long. */
static int open_file(int number, size_t length) {
    char name[4096];
    snprintf(name, sizeof name, "%s.%d", prefix, number);
    int file = open(name, O_RDWR | O_CREAT, 0666);
    CHECK(file >= 0 && ftruncate(file, (off_t)length) == 0);
    return file;
}

static unsigned char *map(int file, size_t from, size_t length) {
    void *place = mmap(NULL, length, PROT_READ | PROT_WRITE, MAP_SHARED, file, (off_t)from);
    CHECK(place != MAP_FAILED);
    return (unsigned char *)place;
}

/* Two files, and memory that is no file. */
static int several(void) {
    static unsigned char memory[100] __attribute__((aligned(64)));
    unsigned char *one = map(open_file(0, PAGE), 0, PAGE), *two = map(open_file(1, 2 * PAGE), 0, 2 * PAGE);
    CHECK(pmtrace_open(trace, one, PAGE, 64) == 0 && pmtrace_open(trace, two, 2 * PAGE, 64) == 0);
    CHECK(pmtrace_open(NULL, memory + 24, 72, 64) == 0);
    pmtrace_store(one[8], 1);
    pmtrace_store(two[PAGE], 2);
    pmtrace_store(memory[24], 3);
    pmtrace_persist(two + PAGE, 1);
    pmtrace_is_ordered_before(two + PAGE, 1, one + 8, 1);
    return close_and_tell();
}

/* The same file once more, by a mapping that nobody opened, and by one of its second page. */
static int mapped_twice(void) {
    int file = open_file(0, 2 * PAGE);
    unsigned char *one = map(file, 0, 2 * PAGE), *again = map(file, 0, 2 * PAGE), *second = map(file, PAGE, PAGE);
    CHECK(pmtrace_open(trace, one, 2 * PAGE, 64) == 0 && pmtrace_open(trace, second, PAGE, 64) == 0);
    CHECK(pmtrace_records(again, 2 * PAGE));
    pmtrace_store(again[100], 1);
    pmtrace_store(second[7], 2);
    pmtrace_persist(one + 100, 1);
    pmtrace_is_persist(again, 2 * PAGE);
    return close_and_tell();
}

/* A file that grows, mapped elsewhere each time, while another pool stands behind it in the trace. */
static int growing(void) {
    unsigned char *one = map(open_file(0, PAGE), 0, PAGE), *other = map(open_file(1, PAGE), 0, PAGE);
    CHECK(pmtrace_open(trace, one, PAGE, 64) == 0 && pmtrace_open(trace, other, PAGE, 64) == 0 && pmtrace_watch() == 0);
    one[0] = 1;
    CHECK(pmtrace_forget(one, PAGE) == 0 && munmap(one, PAGE) == 0 && pmtrace_forget(one, PAGE) == -1);
    other[0] = 2;
    one = map(open_file(0, 3 * PAGE), 0, 3 * PAGE);
    CHECK(pmtrace_open(trace, one, 3 * PAGE, 64) == 0);
    one[64] = 3;
    one[2 * PAGE] = 4;
    pmtrace_persist(one, PAGE);
    return close_and_tell();
}

/* Memory that is no file, and is used further and further. */
static int growing_in_place(void) {
    static unsigned char memory[3 * PAGE] __attribute__((aligned(4096)));
    CHECK(pmtrace_open(trace, memory, 100, 64) == 0 && pmtrace_watch() == 0);
    CHECK(pmtrace_open(trace, memory, 2 * PAGE, 64) == 0);
    memory[PAGE] = 1;
    pmtrace_store(memory[99], 2);
    return close_and_tell();
}

/* Two ranges that meet inside a word and a line: a store, a flush and a look reach over the seam. */
static int seam(void) {
    static unsigned char memory[2 * PAGE] __attribute__((aligned(4096)));
    CHECK(pmtrace_open(trace, memory + 100, 1000, 64) == 0 && pmtrace_open(trace, memory + 600, 1000, 64) == 0);
    pmtrace_memset(memory + 1090, 2, 20);
    pmtrace_clwb(memory + 1090, 20);
    return close_and_tell();
}

/* Two mappings of one file that meet inside a line, apart in memory. */
static int apart(void) {
    int file = open_file(0, 2 * PAGE);
    unsigned char *one = map(file, 0, 2 * PAGE), *other = map(file, 0, 2 * PAGE);
    CHECK(pmtrace_open(trace, one, 1000, 64) == 0 && pmtrace_open(trace, other + 1000, 1000, 64) == 0 && pmtrace_watch() == 0);
    one[992] = 1;
    pmtrace_store(other[1008], 2);
    return close_and_tell();
}

/* Plain stores through one mapping, which nobody noticed yet when another is opened, or is found out. */
static int unnoticed(void) {
    int file = open_file(0, 2 * PAGE);
    unsigned char *one = map(file, 0, 2 * PAGE), *again = map(file, 0, 2 * PAGE), *found = map(file, 0, 2 * PAGE);
    CHECK(pmtrace_open(trace, one, 2 * PAGE, 64) == 0 && pmtrace_watch() == 0);
    one[8] = 1;
    CHECK(pmtrace_open(trace, again, 2 * PAGE, 64) == 0);
    one[PAGE] = 2;
    pmtrace_store(found[PAGE + 128], 3);
    again[64] = 4;
    pmtrace_persist(one + 8, 1);
    return close_and_tell();
}

/* A pool is unmapped without a word, and another file comes to stand there. */
static int replaced(void) {
    unsigned char *one = map(open_file(0, PAGE), 0, PAGE);
    CHECK(pmtrace_open(trace, one, PAGE, 64) == 0);
    pmtrace_store(one[0], 1);
    CHECK(mmap(one, PAGE, PROT_READ | PROT_WRITE, MAP_SHARED | MAP_FIXED, open_file(1, PAGE), 0) == one);
    CHECK(pmtrace_open(trace, one, PAGE, 64) == 0);
    pmtrace_store(one[0], 2);
    return close_and_tell();
}

/* A pool's file is taken away, and made anew under its name, for which the system may take the number of the first. */
static int remade(void) {
    char name[4096];
    snprintf(name, sizeof name, "%s.0", prefix);
    for (int round = 0; round < 3; round++) {
        int file = open_file(0, PAGE);
        unsigned char *one = map(file, 0, PAGE);
        CHECK(pmtrace_open(trace, one, PAGE, 64) == 0);
        pmtrace_store(one[0], (unsigned char)(round + 1));
        CHECK(pmtrace_forget(one, PAGE) == 0 && munmap(one, PAGE) == 0 && close(file) == 0 && unlink(name) == 0);
    }
    return close_and_tell();
}

/* The locks of a pool's file are the program's: that of a description ends with the mapping and the descriptors, that of the process
 * stays till it closes one of these. */
static int locks(void) {
    struct flock whole;
    memset(&whole, 0, sizeof whole);
    whole.l_type = F_WRLCK;
    whole.l_whence = SEEK_SET;
    int file = open_file(0, PAGE), other = open_file(1, PAGE);
    CHECK(flock(file, LOCK_EX | LOCK_NB) == 0 && fcntl(other, F_SETLK, &whole) == 0);
    unsigned char *one = map(file, 0, PAGE), *two = map(other, 0, PAGE);
    CHECK(pmtrace_open(trace, one, PAGE, 64) == 0 && pmtrace_open(trace, two, PAGE, 64) == 0);
    pmtrace_store(one[0], 1);
    CHECK(pmtrace_forget(one, PAGE) == 0 && munmap(one, PAGE) == 0 && close(file) == 0);
    CHECK(flock(open_file(0, PAGE), LOCK_EX | LOCK_NB) == 0);
    CHECK(pmtrace_forget(two, PAGE) == 0 && munmap(two, PAGE) == 0);
    int answer = close_and_tell();
    fflush(stdout);
    pid_t child = fork();
    if (child == 0)
        _exit(fcntl(other, F_SETLK, &whole) == 0);
    int status;
    CHECK(waitpid(child, &status, 0) == child && status == 0);
    return answer;
}

/* Private memory of a pool's file is another pool, and what is not opened is outside. */
static int private_copy(void) {
    int file = open_file(0, PAGE);
    unsigned char *one = map(file, 0, PAGE);
    unsigned char *copy = (unsigned char *)mmap(NULL, PAGE, PROT_READ | PROT_WRITE, MAP_PRIVATE, file, 0);
    CHECK(pmtrace_open(trace, one, PAGE, 64) == 0);
    pmtrace_store(copy[0], 1);
    pmtrace_is_persist(one, 1);
    return close_and_tell();
}

int main(int argc, char **argv) {
    if (argc != 4)
        return 2;
    trace = argv[1];
    prefix = argv[2];
    static const struct {
        const char *name;
        int (*run)(void);
    } cases[] = {{"several", several}, {"twice", mapped_twice},  {"growing", growing}, {"in-place", growing_in_place},
                 {"seam", seam},       {"unnoticed", unnoticed}, {"apart", apart},     {"replaced", replaced},
                 {"remade", remade},   {"private", private_copy}, {"locks", locks}};
    for (size_t at = 0; at < sizeof cases / sizeof cases[0]; at++) {
        if (strcmp(argv[3], cases[at].name) == 0)
            return cases[at].run();
    }
    return 2;
}
