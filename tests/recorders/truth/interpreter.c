/* interpreter DATA SCRIPT: does the random programs of a script, one after the other. What they store is taken from DATA. */
#define PMTRACE_IMPLEMENTATION
#define PMTRACE_LABELS
#include "pmtrace.h"

#include "program.h"

#include <sys/stat.h>

int main(int argc, char **argv) {
    struct stat about;
    static program whole; /* where main has left by pthread_exit its threads go on */
    if (argc != 3 || stat(argv[1], &about) != 0)
        return 2;
    data = map_file(argv[1], (size_t)about.st_size);
    open_script(argv[2]);
    while (read_program(&whole)) {
        run_thread(&whole.threads[0]);
        if (is_script_read())
            break; /* the last one may not have closed its trace: its pools stay */
        free_program(&whole);
    }
    return 0;
}
