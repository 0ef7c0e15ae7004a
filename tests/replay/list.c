/* A list, recorded by pmtrace.h: list POOL pushes nodes, list check POOL looks at what a crash left. With WRONG the head is saved before
 * its node. */
#define PMTRACE_IMPLEMENTATION
#define PMTRACE_LABELS
#include "pmtrace.h"

#include "mapped.h"

enum { NODES = 5 };

struct node {
    uint64_t value, next, sum; /* next: the number of a node and 1, or 0; sum: of the other two */
    uint64_t more[5];
};

struct list {
    _Alignas(64) uint64_t head;
    _Alignas(64) struct node nodes[NODES];
};

static void push(struct list *list, uint64_t number) {
    struct node *node = &list->nodes[number], filled = {number * number, list->head, number * number + list->head, {0}};
    pmtrace_store(*node, filled);
#ifndef WRONG
    pmtrace_persist(node, sizeof *node);
#endif
    pmtrace_store(list->head, number + 1);
    pmtrace_persist(&list->head, sizeof list->head);
#ifdef WRONG
    pmtrace_persist(node, sizeof *node);
#endif
}

static int check(const struct list *list) {
    uint64_t left = NODES;
    for (uint64_t number = list->head; number != 0; number = list->nodes[number - 1].next) {
        const struct node *node = &list->nodes[number - 1];
        if (number > NODES || left-- == 0 || node->sum != node->value + node->next || node->value != (number - 1) * (number - 1)) {
            printf("node %llu is no node\n", (unsigned long long)number);
            return 1;
        }
    }
    return 0;
}

int main(int count, char **words) {
    struct list *list = map(words[count - 1], count == 2 ? sizeof *list : 0);
    if (count == 3)
        return check(list);
    if (pmtrace_open("list.trace", list, sizeof *list, 64) != 0)
        return 2;
    for (uint64_t number = 0; number < NODES; number++)
        push(list, number);
    return pmtrace_close() == 0 ? 0 : 2;
}
