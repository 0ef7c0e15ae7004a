/* results FOLDER: what calls of libpmem.h answer, one a line. libpmem itself and the library that records answer the same. */
#include <libpmem.h>

#include <errno.h>
#include <stdio.h>
#include <stdlib.h>
#include <string.h>
#include <sys/mman.h>
#include <sys/stat.h>
#include <unistd.h>

/* Maps, tells what came of it, and unmaps. */
static void map(const char *what, const char *name, size_t length, int flags) {
    size_t mapped = 77;
    int is_pmem = 77;
    struct stat status;
    errno = 0;
    void *pool = pmem_map_file(name, length, flags, 0640, &mapped, &is_pmem);
    int error = errno;
    printf("%s: %s, mapped %zu, is pmem %d", what, pool != NULL ? "mapped" : strerror(error), mapped, is_pmem);
    if (stat(name, &status) == 0 && !S_ISCHR(status.st_mode))
        printf(", file %o of %ld bytes", status.st_mode, S_ISREG(status.st_mode) ? (long)status.st_size : 0);
    if (pool != NULL) {
        printf(", pmem_is_pmem %d %d", pmem_is_pmem(pool, mapped), pmem_is_pmem(pool, 1));
        printf(", unmap %d", pmem_unmap(pool, mapped));
    }
    printf(", there is a message: %d\n", pool != NULL || pmem_errormsg()[0] != '\0');
}

static void maps(void) {
    map("no file", "none", 0, 0);
    map("a length without creation", "none", 4096, 0);
    map("creation without a length", "made", 0, PMEM_FILE_CREATE);
    map("creation", "made", 5000, PMEM_FILE_CREATE);
    map("what is there", "made", 0, 0);
    map("what is there, sparse", "made", 0, PMEM_FILE_SPARSE);
    map("it grows", "made", 9000, PMEM_FILE_CREATE);
    map("it is cut", "made", 100, PMEM_FILE_CREATE | PMEM_FILE_SPARSE);
    map("exclusive, of what is there", "made", 4096, PMEM_FILE_CREATE | PMEM_FILE_EXCL);
    map("exclusive", "exclusive", 4096, PMEM_FILE_CREATE | PMEM_FILE_EXCL);
    map("a directory", ".", 0, 0);
    map("created, a directory", ".", 4096, PMEM_FILE_CREATE);
    map("a device", "/dev/zero", 0, 0);
    map("created, a device", "/dev/zero", 4096, PMEM_FILE_CREATE);
    map("in no directory", "none/made", 4096, PMEM_FILE_CREATE);
    map("an empty name", "", 4096, PMEM_FILE_CREATE);
    map("a flag that there is not", "made", 4096, PMEM_FILE_CREATE | 1 << 4);
    map("too long", "made", (size_t)1 << 63, PMEM_FILE_CREATE);
    fclose(fopen("empty", "w"));
    map("an empty file", "empty", 0, 0);
    map("too much for the disk", "much", (size_t)1 << 60, PMEM_FILE_CREATE);
    map("too much, exclusive", "too much", (size_t)1 << 60, PMEM_FILE_CREATE | PMEM_FILE_EXCL);
    map("a temporary file", ".", 4096, PMEM_FILE_CREATE | PMEM_FILE_TMPFILE);
    map("an exclusive one", ".", 4096, PMEM_FILE_CREATE | PMEM_FILE_TMPFILE | PMEM_FILE_EXCL);
    map("a temporary file, sparse", ".", 4096, PMEM_FILE_CREATE | PMEM_FILE_TMPFILE | PMEM_FILE_SPARSE);
    map("a temporary file without creation", ".", 0, PMEM_FILE_TMPFILE);
    map("a temporary file in a file", "made", 4096, PMEM_FILE_CREATE | PMEM_FILE_TMPFILE);
    map("a temporary file in no directory", "none", 4096, PMEM_FILE_CREATE | PMEM_FILE_TMPFILE);
}

static void answers(char *pool) {
    char *own = (char *)mmap(NULL, 4096, PROT_READ | PROT_WRITE, MAP_PRIVATE | MAP_ANONYMOUS, -1, 0);
    munmap(own, 4096);
    errno = 0;
    printf("msync of no mapping: %d, ", pmem_msync(own, 1));
    printf("%s\n", strerror(errno));
    printf("msync: %d %d %d\n", pmem_msync(pool, 1), pmem_msync(pool + 5000, 2000), pmem_msync(pool + 100, 0));
    printf("deep: %d %d %d %d\n", pmem_deep_drain(pool, 8), pmem_deep_persist(pool, 8), pmem_deep_drain(pool, 0),
           pmem_deep_persist(pool, 0));
    printf("machine: %d %d\n", pmem_has_auto_flush(), pmem_has_hw_drain());
    for (unsigned major = 0; major < 3; major++)
        for (unsigned minor = 0; minor < 3; minor++)
            printf("version %u.%u: %d\n", major, minor, pmem_check_version(major, minor) == NULL);
    errno = 0;
    printf("unmap of a half page: %d, ", pmem_unmap(pool + 1, 4096));
    printf("%s\n", strerror(errno));
    errno = 0;
    printf("unmap of nothing: %d, ", pmem_unmap(pool, 0));
    printf("%s\n", strerror(errno));
    printf("unmap of a part: %d\n", pmem_unmap(pool + 4096, 4096));
    printf("of what is left: %d %d\n", pmem_is_pmem(pool, 4096), pmem_is_pmem(pool + 8192, 4096));
}

/* Copies of all kinds, with the bytes that they leave. */
static void copies(unsigned char *pool) {
    static const unsigned flags[] = {0,
                                     PMEM_F_MEM_NODRAIN,
                                     PMEM_F_MEM_NONTEMPORAL,
                                     PMEM_F_MEM_TEMPORAL,
                                     PMEM_F_MEM_WC | PMEM_F_MEM_NODRAIN,
                                     PMEM_F_MEM_WB,
                                     PMEM_F_MEM_NOFLUSH};
    unsigned sum = 0;
    for (unsigned at = 0; at < 12288; at++)
        pool[at] = (unsigned char)(at * 7 + at / 251);
    for (unsigned kind = 0; kind < sizeof flags / sizeof *flags; kind++) {
        for (unsigned length = 0; length < 700; length = length * 3 / 2 + 1) {
            if (pmem_memmove(pool + 3 + length, pool + length / 2, length, flags[kind]) != pool + 3 + length)
                printf("memmove answers another address\n");
            pmem_memcpy(pool + 5000 + kind, pool + 100, length, flags[kind]);
            pmem_memset(pool + 7000 + length, (int)(length + 300), length, flags[kind]);
        }
    }
    for (unsigned at = 0; at < 12288; at++)
        sum = sum * 31 + pool[at];
    printf("copies leave %u\n", sum);
}

int main(int argc, char **argv) {
    size_t length;
    if (argc != 2 || chdir(argv[1]) != 0)
        return 2;
    maps();
    char *pool = (char *)pmem_map_file("pool", 12288, PMEM_FILE_CREATE, 0666, &length, NULL);
    if (pool == NULL)
        return 1;
    copies((unsigned char *)pool);
    answers(pool);
    return 0;
}
