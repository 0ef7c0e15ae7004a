/* others FILE..: writes text to each file, and saves it twice; a file with + before its name is mapped and stored to. */
#include <fcntl.h>
#include <sys/mman.h>
#include <unistd.h>

static int save_by_write(const char *name) {
    int file = open(name, O_RDWR | O_CREAT, 0666);
    return file < 0 || write(file, "text", 4) != 4 || fsync(file) != 0 || fdatasync(file) != 0;
}

static int save_by_mapping(const char *name) {
    int file = open(name, O_RDWR | O_CREAT, 0666);
    if (file < 0 || ftruncate(file, 4096) != 0)
        return 1;
    char *pool = mmap(NULL, 4096, PROT_READ | PROT_WRITE, MAP_SHARED, file, 0);
    if (pool == MAP_FAILED)
        return 1;
    pool[0] = 1;
    return msync(pool, 4096, MS_SYNC);
}

int main(int count, char **words) {
    for (int at = 1; at < count; at++)
        if (words[at][0] == '+' ? save_by_mapping(words[at] + 1) : save_by_write(words[at]))
            return 1;
    return 0;
}
