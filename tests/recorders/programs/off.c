/* One function, as the recorder's calls with PMTRACE_OFF, or by hand with BY_HAND: both must become the same instructions. */
#ifdef BY_HAND
#include <stdint.h>
#include <string.h>
#else
#define PMTRACE_OFF
#define PMTRACE_IMPLEMENTATION
#define PMTRACE_LABELS
#include "pmtrace.h"
#endif

struct root {
    uint64_t head, count;
    char name[300];
};

int save(struct root *root, const char *name, uint64_t head);

int save(struct root *root, const char *name, uint64_t head) {
#ifdef BY_HAND
    memcpy(root->name, name, sizeof root->name);
    memset(root->name + 100, 0, 100);
    root->head = head;
    __atomic_fetch_add(&root->count, 1, __ATOMIC_SEQ_CST);
    return 0;
#else
    pmtrace_open("off.trace", root, sizeof *root, 64);
    pmtrace_memcpy(root->name, name, sizeof root->name);
    pmtrace_memset(root->name + 100, 0, 100);
    pmtrace_store(root->head, head);
    pmtrace_fetch_add(&root->count, 1);
    pmtrace_clwb(root, sizeof *root);
    pmtrace_sfence();
    pmtrace_persist(&root->head, sizeof root->head);
    pmtrace_is_persist(root, sizeof *root);
    pmtrace_is_ordered_before(root->name, sizeof root->name, &root->head, sizeof root->head);
    return pmtrace_close();
#endif
}
