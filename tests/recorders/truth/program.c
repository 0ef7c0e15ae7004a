/* Reads the scripts of random programs. Each line is a word and numbers. */
#define _GNU_SOURCE 1
#include "program.h"

#include <fcntl.h>
#include <stdio.h>
#include <stdlib.h>
#include <string.h>
#include <sys/mman.h>
#include <sys/stat.h>
#include <unistd.h>

static const char *const words[KINDS] = {
    "open",   "close",   "watch",      "forget",     "remap", "stop",       "start",       "store",
    "copy",   "move",    "stream",     "within",     "fill",  "exchange",   "compare",     "add",
    "sub",    "and",     "or",         "xor",        "clwb",  "clflushopt", "clflush",     "sfence",
    "mfence", "persist", "is_persist", "is_ordered", "plain", "relaxed",    "read",        "yield",
    "pause",  "wait",    "go",         "spawn",      "join",  "cancel",     "test_cancel", "thread_exit",
    "fork",   "exit",    "quick_exit", "_exit",      "abort", "signal",     "fault"};

static void refuse(const char *what, const char *text) {
    fprintf(stderr, "interpreter: %s: %s\n", what, text);
    _exit(100);
}

unsigned char *map_file(const char *path, size_t length) {
    struct stat about;
    int file = open(path, O_RDWR | O_CREAT | O_CLOEXEC, 0666);
    if (file < 0 || fstat(file, &about) != 0)
        refuse("no file", path);
    if ((size_t)about.st_size < length && ftruncate(file, (off_t)length) != 0)
        refuse("no room", path);
    void *mapped = mmap(NULL, length, PROT_READ | PROT_WRITE, MAP_SHARED, file, 0);
    if (mapped == MAP_FAILED)
        refuse("not mapped", path);
    close(file);
    return (unsigned char *)mapped;
}

static kind kind_of(const char *word) {
    for (int at = 0; at < KINDS; at++) {
        if (strcmp(words[at], word) == 0)
            return (kind)at;
    }
    refuse("no operation", word);
    return KINDS;
}

/* The text is in memory: a FILE would be put back by the exit of a child of fork. */
static const char *script, *script_end;

void open_script(const char *path) {
    struct stat about;
    if (stat(path, &about) != 0)
        refuse("no script", path);
    script = (const char *)map_file(path, (size_t)about.st_size);
    script_end = script + about.st_size;
}

bool is_script_read(void) {
    return script == script_end;
}

/* The next line without its end, or NULL. */
static char *next_line(char *line, size_t size) {
    size_t used = 0;
    if (script == script_end)
        return NULL;
    while (script < script_end && *script != '\n' && used + 1 < size)
        line[used++] = *script++;
    line[used] = '\0';
    script += script < script_end;
    return line;
}

static operation read_operation(void) {
    char line[256], *rest = NULL;
    operation made;
    memset(&made, 0, sizeof made);
    if (next_line(line, sizeof line) == NULL)
        refuse("the script ends", "inside a thread");
    char *word = strtok_r(line, " ", &rest), *number;
    made.word = kind_of(word != NULL ? word : "");
    for (int at = 0; at < MOST_NUMBERS && (number = strtok_r(NULL, " ", &rest)) != NULL; at++)
        made.numbers[at] = strtoull(number, NULL, 10);
    return made;
}

/* `thread COUNT`, and so many operations. */
static void read_thread(program *made, unsigned number) {
    char line[256];
    thread *one = &made->threads[number];
    if (next_line(line, sizeof line) == NULL || sscanf(line, "thread %zu", &one->count) != 1)
        refuse("no thread", line);
    one->program = made;
    one->operations = (operation *)calloc(one->count + 1, sizeof *one->operations);
    if (one->operations == NULL)
        refuse("no memory", line);
    for (size_t at = 0; at < one->count; at++)
        one->operations[at] = read_operation();
    made->records += one->count;
}

void map_pool(pool *mapped) {
    unsigned char *before = mapped->mapped;
    mapped->mapped = map_file(mapped->path, mapped->length + mapped->skew);
    mapped->start = mapped->mapped + mapped->skew;
    if (before != NULL)
        munmap(before, mapped->length + mapped->skew);
}

/* `pool LENGTH SKEW PATH`: so many bytes stand before the pool in its file. */
static void read_pool(pool *made) {
    char line[MOST_PATH + 64];
    if (next_line(line, sizeof line) == NULL || sscanf(line, "pool %zu %zu %1023s", &made->length, &made->skew, made->path) != 3)
        refuse("no pool", line);
    map_pool(made);
}

static void share_log(program *made, const char *path) {
    made->log = (record *)(void *)map_file(path, (made->records + 1) * sizeof(record));
    record *next = made->log;
    for (unsigned at = 0; at < made->thread_count; at++) {
        made->threads[at].records = next;
        next += made->threads[at].count;
    }
}

/* `program LINE_SIZE POOLS THREADS TRACE LOG`, and the pools and threads. */
bool read_program(program *made) {
    char line[2 * MOST_PATH + 64], log[MOST_PATH];
    memset(made, 0, sizeof *made);
    if (next_line(line, sizeof line) == NULL)
        return false;
    if (sscanf(line, "program %u %u %u %1023s %1023s", &made->line_size, &made->pool_count, &made->thread_count, made->trace,
               log) != 5)
        refuse("no program", line);
    made->threads = (thread *)calloc(made->thread_count, sizeof *made->threads);
    if (made->pool_count > MOST_POOLS || made->threads == NULL)
        refuse("no room", line);
    for (unsigned at = 0; at < made->pool_count; at++)
        read_pool(&made->pools[at]);
    for (unsigned at = 0; at < made->thread_count; at++)
        read_thread(made, at);
    share_log(made, log);
    return true;
}

void free_program(program *done) {
    for (unsigned at = 0; at < done->pool_count; at++)
        munmap(done->pools[at].mapped, done->pools[at].length + done->pools[at].skew);
    for (unsigned at = 0; at < done->thread_count; at++)
        free(done->threads[at].operations);
    munmap(done->log, (done->records + 1) * sizeof(record));
    free(done->threads);
}
