/* processes CASE FOLDER: processes made by fork, none of which may be lost in silence.
 *   apart      two children map a file each
 *   inherited  a child stores to what its parent mapped
 *   same       two processes map a file each at one time, and the environment names one trace for both */
#include <libpmem.h>

#include <stdio.h>
#include <stdlib.h>
#include <string.h>
#include <sys/wait.h>
#include <unistd.h>

#define CHECK(right) \
    if (!(right)) { \
        fprintf(stderr, "%s:%d: %s\n", __FILE__, __LINE__, pmem_errormsg()); \
        exit(1); \
    }

static const char *folder;

/* Maps a file of this name, and saves the byte. */
static char *save(const char *name, int byte) {
    char path[4096];
    size_t length;
    snprintf(path, sizeof path, "%s/%s", folder, name);
    char *pool = (char *)pmem_map_file(path, 4096, PMEM_FILE_CREATE, 0666, &length, NULL);
    CHECK(pool != NULL);
    pmem_memset_persist(pool, byte, 1);
    return pool;
}

static void await(pid_t child) {
    int status;
    CHECK(waitpid(child, &status, 0) == child && WIFEXITED(status) && WEXITSTATUS(status) == 0);
}

static pid_t begin(const char *name, int byte) {
    pid_t child = fork();
    CHECK(child >= 0);
    if (child == 0) {
        save(name, byte);
        exit(0);
    }
    return child;
}

static void inherited(void) {
    char *pool = save("one", 1);
    pid_t child = fork();
    CHECK(child >= 0);
    if (child == 0) {
        pmem_memset_persist(pool + 64, 2, 1);
        exit(0);
    }
    await(child);
    pmem_memset_persist(pool + 128, 3, 1);
}

/* The second process maps while the first records. */
static void same(void) {
    int gate[2];
    char byte;
    CHECK(pipe(gate) == 0);
    pid_t child = fork();
    CHECK(child >= 0);
    if (child == 0) {
        CHECK(read(gate[0], &byte, 1) == 1);
        save("two", 2);
        exit(0);
    }
    save("one", 1);
    CHECK(write(gate[1], "g", 1) == 1);
    await(child);
}

int main(int argc, char **argv) {
    CHECK(argc == 3);
    folder = argv[2];
    if (strcmp(argv[1], "apart") == 0) {
        pid_t first = begin("one", 1), second = begin("two", 2);
        await(first);
        await(second);
    } else if (strcmp(argv[1], "inherited") == 0) {
        inherited();
    } else {
        same();
    }
    return 0;
}
