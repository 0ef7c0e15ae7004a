/* A random program as the interpreter has it: pools, threads and their operations, and the log of what each of them did. */
#ifndef TRUTH_PROGRAM_H
#define TRUTH_PROGRAM_H

#include <pthread.h>
#include <stdbool.h>
#include <stddef.h>
#include <stdint.h>

enum { MOST_POOLS = 8, MOST_NUMBERS = 6, MOST_PATH = 1024 };

typedef enum kind {
    OPEN,
    CLOSE,
    WATCH,
    FORGET,
    REMAP,
    STOP,
    START,
    STORE,
    COPY,
    MOVE,
    STREAM,
    WITHIN,
    FILL,
    EXCHANGE,
    COMPARE,
    ADD,
    SUB,
    AND,
    OR,
    XOR,
    CLWB,
    CLFLUSHOPT,
    CLFLUSH,
    SFENCE,
    MFENCE,
    PERSIST,
    IS_PERSIST,
    IS_ORDERED,
    PLAIN,
    RELAXED,
    READ,
    YIELD,
    PAUSE,
    WAIT,
    GO,
    SPAWN,
    JOIN,
    CANCEL,
    TEST_CANCEL,
    THREAD_EXIT,
    FORK,
    EXIT,
    QUICK_EXIT,
    EXIT_NOW,
    ABORT,
    SIGNAL,
    FAULT,
    KINDS
} kind;

/* What an operation did. `begun` and `ended` are tickets of one counter, or 0 where it did not begin or end. */
typedef struct record {
    uint64_t begun, ended;
    uint64_t answer;
    uint64_t expected[2], seen[2];
    uint64_t unused;
} record;

typedef struct operation {
    kind word;
    uint64_t numbers[MOST_NUMBERS];
} operation;

struct program;

typedef struct thread {
    struct program *program;
    pthread_t handle;
    size_t count;
    operation *operations;
    record *records; /* of a file, which a dead process leaves */
} thread;

typedef struct pool {
    unsigned char *start;
    size_t length, skew;
    unsigned char *mapped;
    char path[MOST_PATH];
} pool;

typedef struct program {
    char trace[MOST_PATH];
    unsigned line_size;
    unsigned pool_count, thread_count;
    pool pools[MOST_POOLS];
    thread *threads;
    record *log;
    size_t records;
    int open_gate; /* threads that wait may go on */
} program;

/* Bytes that stand in no pool: what operations store. */
extern const unsigned char *data;

void open_script(const char *path);
bool is_script_read(void);

/* Reads the next program of the script. False at its end. What is no script ends the process. */
bool read_program(program *made);
void free_program(program *done);

/* Maps so many bytes of a file, which grows where it is shorter. */
unsigned char *map_file(const char *path, size_t length);

/* Maps a pool, and takes away the mapping that it had. */
void map_pool(pool *mapped);

/* Does the operations of a thread. */
void *run_thread(void *place);

#endif
