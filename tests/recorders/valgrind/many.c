/* Maps many files and stores to each: many FOLDER COUNT. */
#include <fcntl.h>
#include <stdio.h>
#include <stdlib.h>
#include <sys/mman.h>
#include <unistd.h>

int main(int count, char **words) {
    if (count < 3 || chdir(words[1]) != 0)
        return 2;
    for (long number = 0; number < atol(words[2]); number++) {
        char name[32];
        snprintf(name, sizeof name, "%ld", number);
        int file = open(name, O_RDWR | O_CREAT, 0666);
        if (file < 0 || ftruncate(file, 4096) != 0)
            return 2;
        long *pool = mmap(NULL, 4096, PROT_READ | PROT_WRITE, MAP_SHARED, file, 0);
        pool[0] = number + 1;
        close(file);
    }
    return 0;
}
