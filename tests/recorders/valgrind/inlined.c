/* Functions that are inlined, and flushes before the first store of who asks for them: inlined POOL. The comments say what stands in the
 * label. */
#include <fcntl.h>
#include <immintrin.h>
#include <pthread.h>
#include <sys/mman.h>
#include <unistd.h>

#define INLINED static inline __attribute__((always_inline))
#define APART static __attribute__((noinline))

struct record {
    unsigned char bytes[20];
    unsigned sum, twice, next;
};

static struct record *pool;

INLINED unsigned sum_of(const unsigned char *bytes, int count) {
    unsigned sum = 1;
    for (int at = 0; at < count; at++)
        sum = sum * 31 + bytes[at];
    return sum | 1;
}

INLINED unsigned twice_sum_of(const struct record *record) { return 2 * sum_of(record->bytes, 20); }

INLINED void set_next(struct record *record, unsigned next) {
    record->next = next; /* sets */
}

INLINED void flush(const void *place) {
    _mm_clwb((void *)place);
}

APART void persist(const void *place) {
    flush(place);
    _mm_sfence();
}

APART void append(struct record *record) {
    record->sum = sum_of(record->bytes, 20); /* sums */
    record->twice = twice_sum_of(record);    /* sums twice */
    set_next(record, record->sum);           /* calls set_next */
    persist(record);                         /* saves */
}

/* Before it has stored it flushes for its caller. */
APART void change(unsigned value) {
    persist(&pool[0].next); /* saves what is there */
    pool[0].next = value;   /* changes */
}

/* No caller of it is the program's. */
static void *save(void *none) {
    persist(pool); /* saves in a thread */
    return none;
}

int main(int count, char **words) {
    int file = count == 2 ? open(words[1], O_RDWR | O_CREAT | O_TRUNC, 0666) : -1;
    pthread_t thread;
    if (file < 0 || ftruncate(file, 4096) != 0)
        return 1;
    pool = mmap(NULL, 4096, PROT_READ | PROT_WRITE, MAP_SHARED, file, 0);
    append(&pool[1]); /* calls append */
    for (unsigned value = 1; value < 3; value++)
        change(value); /* calls change */
    return pthread_create(&thread, NULL, save, NULL) || pthread_join(thread, NULL);
}
