/* nofile POOL..: saves a word of each pool, after two attempts to become programs that are not there, and one that is none. */
#include <fcntl.h>
#include <immintrin.h>
#include <sys/mman.h>
#include <unistd.h>

int main(int argc, char **argv) {
    for (int at = 1; at < argc; at++) {
        int file = open(argv[at], O_RDWR | O_CREAT | O_TRUNC, 0666);
        if (file < 0 || ftruncate(file, 4096) != 0)
            return 1;
        char *pool = mmap(NULL, 4096, PROT_READ | PROT_WRITE, MAP_SHARED, file, 0);
        if (pool == MAP_FAILED)
            return 1;
        execl("/no/such/program", "program", (char *)0);
        execlp("no-such-program", "program", (char *)0);
        execl(argv[at], "program", (char *)0);
        pool[0] = 1;
        _mm_clwb(pool);
        _mm_sfence();
    }
    return 0;
}
