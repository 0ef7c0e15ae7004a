/* A persistent list in a mapped file. A node is saved before the head points to it. In the wrong version most of the node is not,
 * since the size of a pointer was taken for the size of the node.
 *
 *   gcc -pthread -I recorders/c -o list recorders/examples/list.c             the right version
 *   gcc -pthread -I recorders/c -o list recorders/examples/list.c -DWRONG     the wrong one
 *   ./list && pmtrim check list.trace
 */
#define PMTRACE_IMPLEMENTATION
#define PMTRACE_LABELS
#include "pmtrace.h"

#include <fcntl.h>
#include <stdio.h>
#include <sys/mman.h>
#include <unistd.h>

enum { NODES = 20, VALUE_BYTES = 4104, LINE = 64 };

/* A node, named by its distance from the beginning of the pool. */
struct node {
    _Alignas(LINE) uint64_t next;
    char value[VALUE_BYTES];
};

struct pool {
    uint64_t head; /* 0: the list is empty */
    struct node nodes[NODES];
};

static void persist_at(const char *label, const void *start, size_t length) {
    /* On persistent memory: _mm_clwb of each line of the range, and _mm_sfence. */
    pmtrace_persist_at(label, start, length);
}
#define persist(start, length) persist_at(PMTRACE_HERE, start, length)

static void insert(struct pool *pool, struct node *node, char letter) {
    struct node filled = {.next = pool->head};
    memset(filled.value, letter, sizeof filled.value);
    pmtrace_memcpy(node, &filled, sizeof filled);
#ifdef WRONG
    persist(node, sizeof node);
#else
    persist(node, sizeof *node);
#endif
    pmtrace_store(pool->head, (uint64_t)((char *)node - (char *)pool));
    persist(&pool->head, sizeof pool->head);
    pmtrace_is_ordered_before(node, sizeof *node, &pool->head, sizeof pool->head);
}

int main(void) {
    int file = open("list.pool", O_RDWR | O_CREAT | O_TRUNC, 0666);
    if (file < 0 || ftruncate(file, sizeof(struct pool)) != 0) {
        perror("list.pool");
        return 1;
    }
    struct pool *pool = mmap(NULL, sizeof *pool, PROT_READ | PROT_WRITE, MAP_SHARED, file, 0);
    if (pool == MAP_FAILED || pmtrace_open("list.trace", pool, sizeof *pool, LINE) != 0)
        return 1;
    for (int number = 0; number < NODES; number++)
        insert(pool, &pool->nodes[number], (char)('a' + number));
    return pmtrace_close() == 0 ? 0 : 1;
}
