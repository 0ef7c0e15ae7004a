/* What a program tells the recorder, and functions whose calls it watches: claims POOL. */
#include "pmtrim_record.h"
#include <fcntl.h>
#include <setjmp.h>
#include <stdlib.h>
#include <string.h>
#include <sys/mman.h>
#include <unistd.h>

static volatile unsigned char *pool;
static jmp_buf left;

void save(const volatile void *start, size_t length) __attribute__((noinline));
void save_by_length(size_t length, const volatile void *start) __attribute__((noinline));
void formatted(void) __attribute__((noinline));
void finish(void) __attribute__((noinline));
void save_or_leave(const volatile void *start, size_t length) __attribute__((noinline));

void save(const volatile void *start, size_t length) {
    for (const volatile unsigned char *line = start; line < (const volatile unsigned char *)start + length; line += 64)
        __asm__ volatile("clwb (%0)" : : "r"(line) : "memory");
    __asm__ volatile("sfence" : : : "memory");
}

void save_by_length(size_t length, const volatile void *start) {
    save(start, length);
}

void save_or_leave(const volatile void *start, size_t length) {
    if (length > 8)
        longjmp(left, 1);
    save(start, length);
}

void formatted(void) {
    pool[0] = 1;
}

void finish(void) {
    pool[1] = 2;
}

int main(int count, char **words) {
    int file = open(words[count - 1], O_RDWR | O_CREAT | O_TRUNC, 0666);
    if (file < 0 || ftruncate(file, 16384) != 0)
        return 1;
    pool = mmap(NULL, 16384, PROT_READ | PROT_WRITE, MAP_SHARED, file, 0);
    formatted();
    if (count > 2)
        PMTRIM_START();
    pool[64] = 3;
    save(pool + 64, 8);
    save_by_length(70, pool + 128);
    PMTRIM_IS_PERSIST(pool + 64, 5000);
    PMTRIM_IS_ORDERED_BEFORE(pool + 64, 8, pool + 256, 4097);
    if (setjmp(left) == 0)
        save_or_leave(pool + 64, 9);
    pool[65] = 4;
    save_or_leave(pool + 64, 8);
    PMTRIM_IS_PERSIST(&count, sizeof count);
    if (count > 2)
        PMTRIM_STOP();
    finish();
    return 0;
}
