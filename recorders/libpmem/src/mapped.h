/* mapped.h: what the system has mapped for the process. */
#ifndef PMTRACE_MAPPED_H
#define PMTRACE_MAPPED_H

#include <stdbool.h>
#include <stddef.h>

/* A mapping, or the part of it that is in the range that was asked for. */
struct pmtrace_mapped {
    const char *start;
    size_t length;
    bool shared;     /* of a file; what is stored there reaches it */
    char device[16]; /* of the file, with its inode: what tells it from all others that there are */
    unsigned long inode;
    const char *name; /* the file's, where there is one */
};

/* Shows each mapping that has bytes of the range to `look`, with `of`. False where the system does not tell, with errno. */
bool pmtrace_look_at_mapped(const void *start, size_t length, void (*look)(void *of, const struct pmtrace_mapped *mapped),
                            void *of);

#endif /* PMTRACE_MAPPED_H */
