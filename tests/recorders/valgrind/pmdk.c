/* What PMDK asks of pmemcheck: pmdk POOL. It prints whether three ranges are persistent memory. */
#include <fcntl.h>
#include <stdio.h>
#include <sys/mman.h>
#include <unistd.h>
#include <valgrind/valgrind.h>

/* As pmemcheck.h numbers them. */
enum { REGISTER, REGISTER_FILE, REMOVE, CHECK, PRINT, SET_CLEAN = 17 };

static unsigned long ask(int what, const volatile void *start, size_t length) {
    return VALGRIND_DO_CLIENT_REQUEST_EXPR(0, VG_USERREQ_TOOL_BASE('P', 'C') + (unsigned int)what, start, length, 0, 0, 0);
}

int main(int count, char **words) {
    int file = open(words[count - 1], O_RDWR | O_CREAT | O_TRUNC, 0666);
    if (file < 0 || ftruncate(file, 4096) != 0)
        return 1;
    volatile char *pool = mmap(NULL, 4096, PROT_READ | PROT_WRITE, MAP_SHARED, file, 0);
    ask(REGISTER, pool, 4096);
    unsigned long all = ask(CHECK, pool, 4096);
    ask(REMOVE, pool + 64, 16);
    ask(REMOVE, pool + 72, 16);
    unsigned long part = ask(CHECK, pool, 4096), rest = ask(CHECK, pool + 128, 64);
    pool[64] = 1; /* a lock */
    pool[80] = 2;
    pool[256] = 3;
    ask(SET_CLEAN, pool + 256, 8);
    ask(REMOVE, pool + 1024, 32);
    pool[1024] = 5; /* a lock, which is freed */
    ask(REGISTER, pool + 1032, 64);
    pool[1032] = 6; /* lost in truth */
    pool[512] = 4;  /* so is this */
    printf("%lu %lu %lu\n", all, part, rest);
    ask(REMOVE, pool, 4096);
    munmap((void *)pool, 4096);
    return 0;
}
