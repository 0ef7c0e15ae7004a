/* shapes POOL: ways of calling libpmem that a macro would break. */
#include <libpmem.h>

#include <stdio.h>
#include <stdlib.h>
#include <string.h>

struct point {
    int x, y;
};

/* Members of the calls' names. */
struct calls {
    void (*pmem_persist)(const void *, size_t);
    void (*pmem_drain)(void);
    void *(*pmem_memcpy)(void *, const void *, size_t, unsigned);
    void *(*pmem_map_file)(const char *, size_t, int, mode_t, size_t *, int *);
    int (*pmem_unmap)(void *, size_t);
};

#ifdef __cplusplus
/* Functions of these names in a class and in a namespace, and a template that takes one. */
struct Pool {
    void *start;
    void pmem_persist(size_t length) const {
        ::pmem_persist(start, length);
    }
};
namespace engine {
void pmem_drain() {
    ::pmem_drain();
}
} // namespace engine
template <typename Function, typename... Arguments> auto apply(Function function, Arguments... arguments) {
    return function(arguments...);
}
#endif

static void call(struct point *place, const struct calls *calls) {
#ifdef __cplusplus
    const point filled[] = {point{1, 2}};
    pmem_memcpy_persist(place, filled, sizeof *place);
    apply(pmem_flush, place, sizeof *place);
    Pool{place}.pmem_persist(sizeof *place);
    engine::pmem_drain();
#else
    pmem_memcpy_persist(place, &(struct point){1, 2}, sizeof *place);
    (pmem_flush)(place, sizeof *place);
    (*pmem_persist)(place, sizeof *place);
    pmem_drain();
#endif
    calls->pmem_persist(place, sizeof *place);
    calls->pmem_drain();
    (void)calls->pmem_memcpy(place, place + 1, 4, PMEM_F_MEM_VALID_FLAGS & PMEM_F_MEM_NODRAIN);
}

int main(int argc, char **argv) {
    const struct calls calls = {pmem_persist, pmem_drain, pmem_memcpy, pmem_map_file, pmem_unmap};
    size_t length;
    if (argc != 2)
        return 2;
    struct point *place =
        (struct point *)calls.pmem_map_file(argv[1], 4096, PMEM_FILE_CREATE | PMEM_FILE_SPARSE, 0666, &length, NULL);
    if (place == NULL) {
        fprintf(stderr, "%s\n", pmem_errormsg());
        return 1;
    }
    call(place, &calls);
    return calls.pmem_unmap(place, length);
}
