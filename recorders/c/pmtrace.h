/* pmtrace.h: records what a program does to persistent memory, as a trace for pmtrim.
 *
 * One header for C11 and C++17, by gcc or clang, on Linux, with pthread and nothing else. Include it where you need it. In one C or
 * C++ file of the program define PMTRACE_IMPLEMENTATION before the include; where that file is compiled with -std=c11 rather than
 * -std=gnu11, let the include be its first. It is made from recorders/c/parts, where it is easier to read and to be mended.
 *
 *     pmtrace_open("run.trace", pool, pool_length, 64);
 *     pmtrace_memcpy(node, &filled, sizeof filled);        the copy, and its stores in the trace
 *     pmtrace_persist(node, sizeof *node);                 clwb of its lines, and sfence
 *     pmtrace_store(root->head, offset_of(node));          root->head = offset_of(node)
 *     pmtrace_persist(&root->head, sizeof root->head);
 *     pmtrace_is_ordered_before(node, sizeof *node, &root->head, sizeof root->head);
 *     pmtrace_close();
 *
 * - A store is done and noted under one lock, so the order in the trace is the order in which memory saw the recorded stores.
 * - A flush or a fence is only noted: keep your own instructions beside the calls. Where other threads store meanwhile, let a
 *   flush follow its call, and a fence come before it, so that the trace promises no more than the machine did.
 * - What lies outside the pools is done, reported once on standard error, and left out.
 * - Each call has put its events in the file before it returns, so nothing is lost when the program exits, aborts or is killed.
 * - The trace is always a true beginning of what happened. It ends early where it is full (1,000,000 events), where 257 threads
 *   have a number at one time, where a call never returned, or where the file can't be written. The program goes on; standard
 *   error, pmtrace_close and the file FILE.cut beside the trace tell of it.
 * - Calls before pmtrace_open and after pmtrace_close do the store alone. So do those of a child made by fork.
 * - Not to be called from a signal handler.
 *
 * Macros, to be defined before the include:
 *   PMTRACE_LABELS   where pmtrace_open is called, and in each file whose source lines are wanted: FILE.labels, beside the trace,
 *                    has a line `EVENT FILE:LINE FUNCTION` for each event, by its number and where its call stands
 *   PMTRACE_OFF      nothing is recorded and nothing is linked; stores and copies are done as by hand
 */
#ifndef PMTRACE_H
#define PMTRACE_H

#if defined PMTRACE_IMPLEMENTATION && !defined _DEFAULT_SOURCE
#define _DEFAULT_SOURCE 1
#endif

#include <stdbool.h>
#include <stddef.h>
#include <stdint.h>
#include <string.h>
#ifdef __cplusplus
#include <atomic>
#endif

#define PMTRACE_TEXT_OF_(number) #number
#define PMTRACE_TEXT_(number) PMTRACE_TEXT_OF_(number)

/* The label of a call: its source line, by which the function is known too, or none. The functions whose names end in _at take a
 * label, for an engine's own helpers that hand on where they were called. A label is a text of one line. */
#if defined PMTRACE_LABELS && !defined PMTRACE_OFF
#define PMTRACE_HERE pmtrace_in_(__FILE__ ":" PMTRACE_TEXT_(__LINE__), __builtin_FUNCTION())
#else
#define PMTRACE_HERE ((const char *)0)
#endif

/* pmtrace_open(file, base, length, line_size) begins a trace in `file`, whose first pool is the `length` bytes from `base` on, with
 * cache lines of 32, 64, 128 or 256 bytes. While that trace is open, a further call with the same file, or with NULL for it, adds
 * a pool to it. Answers 0, or -1 where the range is not recorded; standard error says why.
 * Addresses in the trace are distances from the beginning of the pool's first line; those of a further pool begin at the next
 * multiple of 2^40. A file that is mapped twice, or again, or longer than before, has the same addresses each time; so has a range
 * that begins where a pool does and is longer. That two mappings are of one file is read in /proc/self/maps. */
#define pmtrace_open(...) pmtrace_open_at(PMTRACE_HERE, __VA_ARGS__)

/* With PMTRACE_BASE=1 in the environment, `file`.base gets the first pool's bytes as they stand when recording begins: when it is
 * opened, or with a window when that opens. `file`.origin gets one line, the address in the trace of the pool's first byte. Further
 * pools have .base2 and .origin2, and so on; what a pool grows by is added. By these pmtrim makes the pool as a crash leaves it. A base
 * that can't be written is told of and removed, and pmtrace_close answers -1. Bases of an earlier trace of that name are removed. */

/* pmtrace_forget(start, length) comes before a range is unmapped, moved or cut off: it belongs to no pool any more, until it is
 * opened again. Answers 0, or -1 where nothing of the range is in a pool of an open trace. */
#define pmtrace_forget(...) pmtrace_forget_at(PMTRACE_HERE, __VA_ARGS__)

/* pmtrace_close() ends the trace of all pools; when the program exits this is done unasked, after the destructors of its static
 * objects. Answers 0 where all that the calls did to the pools since pmtrace_open, or in the window, is in the trace, no call
 * reached outside, no child made by fork reached a shared pool, and nothing was seen to escape pmtrace_watch. Else -1; standard
 * error says why. */
#define pmtrace_close() pmtrace_close_at(PMTRACE_HERE)

/* pmtrace_watch() keeps a copy of the open trace's pools from here on, those that are opened later too. Stores that the recorder
 * was not told of are noticed by it: in the lines of a store, flush or assertion when that comes, and in the whole pools at each
 * fence, at each clflush, where the window opens or closes, and at the end. What changed since the last look is noted by rising
 * address, for the thread that looks; what changed back is not seen. Where Linux tells of the pages that a mapping changed (6.7 and
 * later) these alone are looked at, and at the end all of them: what then differs was changed by other means (write(2), another
 * process, a mapping that was not opened), is noted there, and told. The environment's PMTRACE_WATCH=all looks at all each time.
 * Answers 0, or -1 where there is no memory for the copy or no open trace. */
#define pmtrace_watch() pmtrace_watch_at(PMTRACE_HERE)

/* The window: after pmtrace_stop() nothing is written to the trace, and after pmtrace_start() it is again; it is open at first.
 * Meanwhile stores are done, and followed by lines: at the start, the words of a line that was stored to and not flushed and
 * fenced since are noted as stores, and its flush if one is open, so that it is not taken for safe. What was made safe counts as
 * what stood in the pool from the first, where the trace has no store yet; else its lines are noted too, as stores and a clflush.
 * What was stored before the stop, and flushed or fenced after it, counts as not flushed. A claim of order about bytes of the second
 * range whose last store came before the window is set aside, which is told: the trace can't say when these became safe. So a claim
 * that passes in a window passes in the whole run.
 * The environment's PMTRACE_START=N leaves out the first N events, to the end of the call that makes event N; PMTRACE_STOP=N leaves
 * out what comes after the call that makes event N. Answer 0, or -1 where no trace is open.
 * A trace ends at 1,000,000 events, which is as many as pmtrim reads at once. With PMTRACE_WHOLE=1 in the environment it has them all:
 * pmtrim parts cuts it then. */
#define pmtrace_start() pmtrace_start_at(PMTRACE_HERE)
#define pmtrace_stop() pmtrace_stop_at(PMTRACE_HERE)

#ifdef __cplusplus
#define PMTRACE_ASSERT_(claim, text) static_assert(claim, text)
#define PMTRACE_ASSERT_PLAIN_(type) \
    PMTRACE_ASSERT_(__is_trivially_copyable(type), "pmtrace.h: this type is not copied by its bytes")
#else
#define PMTRACE_ASSERT_(claim, text) _Static_assert(claim, text)
#define PMTRACE_ASSERT_PLAIN_(type) PMTRACE_ASSERT_(sizeof(type) > 0, "pmtrace.h: this type has no bytes")
#endif

/* The type of a place's value: without const, volatile, _Atomic and std::atomic. */
#ifdef __cplusplus
template <class type> type pmtrace_value_of_(const volatile type &);
template <class type> type pmtrace_value_of_(const volatile std::atomic<type> &);
#define PMTRACE_TYPE_(place) __typeof__(pmtrace_value_of_(place))
#else
#define PMTRACE_TYPE_(place) __typeof__(((void)0, (place)))
#endif

/* Names that are new at each use, for calls within calls. */
#define PMTRACE_GLUE_TEXTS_(one, other) one##other
#define PMTRACE_GLUE_(one, other) PMTRACE_GLUE_TEXTS_(one, other)

/* Bytes between the fields of a struct are zero in the pool and the trace, where the compiler can do that. */
#ifdef __has_builtin
#if __has_builtin(__builtin_clear_padding)
#define PMTRACE_CLEAR_PADDING_(value) __builtin_clear_padding(value)
#endif
#endif
#ifndef PMTRACE_CLEAR_PADDING_
#define PMTRACE_CLEAR_PADDING_(value) ((void)0)
#endif

/* pmtrace_store(place, value) is `place = value`, of a place of any type that `=` copies by its bytes; no bit field. A place of 1, 2,
 * 4 or 8 bytes, aligned to them, is stored to at once. */
#ifdef PMTRACE_OFF
#define pmtrace_store(place, ...) ((void)((place) = (__VA_ARGS__)))
#else
#define pmtrace_store(place, ...) \
    do { \
        PMTRACE_ASSERT_PLAIN_(PMTRACE_TYPE_(place)); \
        PMTRACE_TYPE_(place) pmtrace_value_ = (__VA_ARGS__); \
        PMTRACE_ASSERT_(sizeof(place) == sizeof pmtrace_value_, "pmtrace.h: this type is more than its value"); \
        PMTRACE_CLEAR_PADDING_(&pmtrace_value_); \
        pmtrace_store_at(PMTRACE_HERE, &(place), &pmtrace_value_, sizeof pmtrace_value_); \
    } while (0)
#endif

/* As memcpy, memmove and memset, of any length. In the trace they are stores of at most an aligned word each, by rising address. A
 * store that takes more events than the trace has room for is done, and the trace ends before it. */
#define pmtrace_memcpy(...) pmtrace_memcpy_at(PMTRACE_HERE, __VA_ARGS__)
#define pmtrace_memmove(...) pmtrace_memmove_at(PMTRACE_HERE, __VA_ARGS__)
#define pmtrace_memset(...) pmtrace_memset_at(PMTRACE_HERE, __VA_ARGS__)

/* A copy or fill by non-temporal stores, as memmove and memset: the stores, and clflushopt of their lines, with no event of another
 * thread between. The thread's next fence makes them safe. */
#define pmtrace_memcpy_nontemporal(...) pmtrace_memcpy_nontemporal_at(PMTRACE_HERE, __VA_ARGS__)
#define pmtrace_memset_nontemporal(...) pmtrace_memset_nontemporal_at(PMTRACE_HERE, __VA_ARGS__)

/* Atomic operations, sequentially consistent, on an aligned place of 1, 2, 4 or 8 bytes: so many as the pointer's type has. Exchanges
 * are of any such type, on x86-64 of 16 bytes too; the others are of integers. Each answers what stood there before, but
 * pmtrace_compare_exchange(place, &expected, value) whether it stored; where it did not, `expected` gets what stood there.
 * In the trace a plain store stands for one that wrote, and no fence: on the processor a locked instruction waits for the thread's
 * flushes as sfence does, so a failed assertion may be a false alarm where the program counts on that, and a passed one is true.
 * Call pmtrace_sfence before it to say that it does. */
#define pmtrace_exchange(place, ...) \
    PMTRACE_EXCHANGE_(PMTRACE_GLUE_(pmtrace_new_, __COUNTER__), PMTRACE_GLUE_(pmtrace_old_, __COUNTER__), place, __VA_ARGS__)
#define pmtrace_compare_exchange(place, expected, ...) \
    PMTRACE_COMPARE_EXCHANGE_(PMTRACE_GLUE_(pmtrace_new_, __COUNTER__), place, expected, __VA_ARGS__)
#define pmtrace_fetch_add(place, ...) PMTRACE_FETCH_(PMTRACE_ADD, place, __VA_ARGS__)
#define pmtrace_fetch_sub(place, ...) PMTRACE_FETCH_(PMTRACE_SUB, place, __VA_ARGS__)
#define pmtrace_fetch_and(place, ...) PMTRACE_FETCH_(PMTRACE_AND, place, __VA_ARGS__)
#define pmtrace_fetch_or(place, ...) PMTRACE_FETCH_(PMTRACE_OR, place, __VA_ARGS__)
#define pmtrace_fetch_xor(place, ...) PMTRACE_FETCH_(PMTRACE_XOR, place, __VA_ARGS__)

#define PMTRACE_EXCHANGE_(new_value, old_value, place, ...) \
    __extension__({ \
        PMTRACE_TYPE_(*(place)) new_value = (__VA_ARGS__), old_value; \
        PMTRACE_ASSERT_EXCHANGED_(*(place), new_value); \
        PMTRACE_CLEAR_PADDING_(&new_value); \
        old_value = \
            *(__typeof__(old_value) *)pmtrace_exchange_at(PMTRACE_HERE, (place), sizeof new_value, &new_value, &old_value); \
    })
#define PMTRACE_COMPARE_EXCHANGE_(new_value, place, expected, ...) \
    __extension__({ \
        PMTRACE_TYPE_(*(place)) new_value = (__VA_ARGS__); \
        PMTRACE_ASSERT_EXCHANGED_(*(place), new_value); \
        PMTRACE_ASSERT_(sizeof *(expected) == sizeof new_value, "pmtrace.h: what is expected has the place's type"); \
        PMTRACE_CLEAR_PADDING_(&new_value); \
        pmtrace_compare_exchange_at(PMTRACE_HERE, (place), sizeof new_value, (expected), &new_value); \
    })
#define PMTRACE_FETCH_(kind, place, ...) \
    PMTRACE_FETCH_NAMED_(PMTRACE_GLUE_(pmtrace_new_, __COUNTER__), PMTRACE_GLUE_(pmtrace_old_, __COUNTER__), kind, place, \
                         __VA_ARGS__)
#define PMTRACE_FETCH_NAMED_(new_value, old_value, kind, place, ...) \
    __extension__({ \
        PMTRACE_TYPE_(*(place)) new_value = (__VA_ARGS__), old_value; \
        PMTRACE_ASSERT_(sizeof(new_value | 0) && sizeof new_value <= 8, "pmtrace.h: an integer of at most 8 bytes"); \
        PMTRACE_ASSERT_EXCHANGED_(*(place), new_value); \
        old_value = \
            *(__typeof__(old_value) *)pmtrace_fetch_at(PMTRACE_HERE, kind, (place), sizeof new_value, &new_value, &old_value); \
    })

#ifdef __x86_64__
#define PMTRACE_MOST_EXCHANGED_ 16
#else
#define PMTRACE_MOST_EXCHANGED_ 8
#endif
#define PMTRACE_ASSERT_EXCHANGED_(place, value) \
    PMTRACE_ASSERT_PLAIN_(__typeof__(value)); \
    PMTRACE_ASSERT_(sizeof(place) == sizeof(value), "pmtrace.h: this type is more than its value"); \
    PMTRACE_ASSERT_(sizeof(value) <= PMTRACE_MOST_EXCHANGED_ && (sizeof(value) & (sizeof(value) - 1)) == 0, \
                    "pmtrace.h: no atomic operation has this size")

/* Notes a flush of each line of the range, by the named instruction. */
#define pmtrace_clwb(...) pmtrace_flush_at(PMTRACE_HERE, PMTRACE_CLWB, __VA_ARGS__)
#define pmtrace_clflushopt(...) pmtrace_flush_at(PMTRACE_HERE, PMTRACE_CLFLUSHOPT, __VA_ARGS__)
#define pmtrace_clflush(...) pmtrace_flush_at(PMTRACE_HERE, PMTRACE_CLFLUSH, __VA_ARGS__)

/* Notes a fence of the calling thread. */
#define pmtrace_sfence() pmtrace_fence_at(PMTRACE_HERE, PMTRACE_SFENCE)
#define pmtrace_mfence() pmtrace_fence_at(PMTRACE_HERE, PMTRACE_MFENCE)

/* pmtrace_persist(start, length): pmtrace_clwb of the range, and pmtrace_sfence, with no event of another thread between. */
#define pmtrace_persist(...) pmtrace_persist_at(PMTRACE_HERE, __VA_ARGS__)

/* pmtrace_is_persist(start, length): the claim that no crash from here on loses what was stored last in the range.
 * pmtrace_is_ordered_before(first, first_length, second, second_length): the claim that at no moment so far a crash could leave
 * some of what was stored last in the second range without all of the first. pmtrim judges them. Longer ranges are cut at 4096
 * bytes, into an assertion for each piece, or for each pair of pieces: the claim holds exactly where all of these pass. */
#define pmtrace_is_persist(...) pmtrace_is_persist_at(PMTRACE_HERE, __VA_ARGS__)
#define pmtrace_is_ordered_before(...) pmtrace_is_ordered_before_at(PMTRACE_HERE, __VA_ARGS__)

#ifdef __cplusplus
extern "C" {
#endif

typedef enum pmtrace_flush_kind { PMTRACE_CLWB, PMTRACE_CLFLUSHOPT, PMTRACE_CLFLUSH } pmtrace_flush_kind;
typedef enum pmtrace_fence_kind { PMTRACE_SFENCE, PMTRACE_MFENCE } pmtrace_fence_kind;
typedef enum pmtrace_fetch_kind { PMTRACE_ADD, PMTRACE_SUB, PMTRACE_AND, PMTRACE_OR, PMTRACE_XOR } pmtrace_fetch_kind;

/* --- atomic operations, as the compiler does them --- */

typedef uint8_t __attribute__((may_alias)) pmtrace_bytes1_;
typedef uint16_t __attribute__((may_alias)) pmtrace_bytes2_;
typedef uint32_t __attribute__((may_alias)) pmtrace_bytes4_;
typedef uint64_t __attribute__((may_alias)) pmtrace_bytes8_;

#define PMTRACE_FETCH_AS_(type) \
    switch (kind) { \
    case PMTRACE_ADD: \
        return __atomic_fetch_add((volatile type *)place, (type)value, __ATOMIC_SEQ_CST); \
    case PMTRACE_SUB: \
        return __atomic_fetch_sub((volatile type *)place, (type)value, __ATOMIC_SEQ_CST); \
    case PMTRACE_AND: \
        return __atomic_fetch_and((volatile type *)place, (type)value, __ATOMIC_SEQ_CST); \
    case PMTRACE_OR: \
        return __atomic_fetch_or((volatile type *)place, (type)value, __ATOMIC_SEQ_CST); \
    default: \
        return __atomic_fetch_xor((volatile type *)place, (type)value, __ATOMIC_SEQ_CST); \
    }

static inline uint64_t pmtrace_do_fetch_(pmtrace_fetch_kind kind, volatile void *place, size_t size, uint64_t value) {
    switch (size) {
    case 1:
        PMTRACE_FETCH_AS_(pmtrace_bytes1_)
    case 2:
        PMTRACE_FETCH_AS_(pmtrace_bytes2_)
    case 4:
        PMTRACE_FETCH_AS_(pmtrace_bytes4_)
    default:
        PMTRACE_FETCH_AS_(pmtrace_bytes8_)
    }
}

#ifdef __x86_64__
typedef struct __attribute__((may_alias)) pmtrace_bytes16_ {
    uint64_t words[2];
} pmtrace_bytes16_;

/* Two words are compared with what is expected; where they are equal the value is stored, else they are read. */
static inline bool pmtrace_do_compare_exchange_16_(volatile void *place, uint64_t expected[2], const uint64_t value[2]) {
    bool done;
    __asm__ __volatile__("lock cmpxchg16b %1"
                         : "=@ccz"(done), "+m"(*(volatile pmtrace_bytes16_ *)place), "+a"(expected[0]), "+d"(expected[1])
                         : "b"(value[0]), "c"(value[1])
                         : "memory");
    return done;
}
#else
static inline bool pmtrace_do_compare_exchange_16_(volatile void *place, uint64_t expected[2], const uint64_t value[2]) {
    (void)place, (void)expected, (void)value;
    return false;
}
#endif

/* The same of 1 to 8 bytes, which are the first of the words. */
#define PMTRACE_COMPARE_EXCHANGE_AS_(type) \
    __atomic_compare_exchange_n((volatile type *)place, (type *)expected, *(const type *)value, false, __ATOMIC_SEQ_CST, \
                                __ATOMIC_SEQ_CST)

static inline bool pmtrace_do_compare_exchange_(volatile void *place, size_t size, uint64_t expected[2],
                                                const uint64_t value[2]) {
    switch (size) {
    case 1:
        return PMTRACE_COMPARE_EXCHANGE_AS_(pmtrace_bytes1_);
    case 2:
        return PMTRACE_COMPARE_EXCHANGE_AS_(pmtrace_bytes2_);
    case 4:
        return PMTRACE_COMPARE_EXCHANGE_AS_(pmtrace_bytes4_);
    case 8:
        return PMTRACE_COMPARE_EXCHANGE_AS_(pmtrace_bytes8_);
    default:
        return pmtrace_do_compare_exchange_16_(place, expected, value);
    }
}

/* Stores the value, and answers in `before` what stood there. */
static inline void pmtrace_do_exchange_(volatile void *place, size_t size, const uint64_t value[2], uint64_t before[2]) {
    switch (size) {
    case 1:
        *(pmtrace_bytes1_ *)before =
            __atomic_exchange_n((volatile pmtrace_bytes1_ *)place, *(const pmtrace_bytes1_ *)value, __ATOMIC_SEQ_CST);
        break;
    case 2:
        *(pmtrace_bytes2_ *)before =
            __atomic_exchange_n((volatile pmtrace_bytes2_ *)place, *(const pmtrace_bytes2_ *)value, __ATOMIC_SEQ_CST);
        break;
    case 4:
        *(pmtrace_bytes4_ *)before =
            __atomic_exchange_n((volatile pmtrace_bytes4_ *)place, *(const pmtrace_bytes4_ *)value, __ATOMIC_SEQ_CST);
        break;
    case 8:
        *(pmtrace_bytes8_ *)before =
            __atomic_exchange_n((volatile pmtrace_bytes8_ *)place, *(const pmtrace_bytes8_ *)value, __ATOMIC_SEQ_CST);
        break;
    default:
        while (!pmtrace_do_compare_exchange_16_(place, before, value))
            ;
    }
}

/* A store of a value of any size: at once where the processor has such a store. */
static inline void pmtrace_do_store_(volatile void *place, size_t size, const volatile void *value) {
    uintptr_t from = (uintptr_t)value, to = (uintptr_t)place;
    bool aligned = size <= 8 && to % size == 0;
    if (aligned && size == 1)
        __atomic_store_n((pmtrace_bytes1_ *)to, *(const pmtrace_bytes1_ *)from, __ATOMIC_RELEASE);
    else if (aligned && size == 2)
        __atomic_store_n((pmtrace_bytes2_ *)to, *(const pmtrace_bytes2_ *)from, __ATOMIC_RELEASE);
    else if (aligned && size == 4)
        __atomic_store_n((pmtrace_bytes4_ *)to, *(const pmtrace_bytes4_ *)from, __ATOMIC_RELEASE);
    else if (aligned && size == 8)
        __atomic_store_n((pmtrace_bytes8_ *)to, *(const pmtrace_bytes8_ *)from, __ATOMIC_RELEASE);
    else
        memmove((void *)to, (const void *)from, size);
}

/* Copies of the bytes of a value of any type. */
static inline void pmtrace_get_(void *to, const volatile void *from, size_t size) {
    memcpy(to, (const void *)(uintptr_t)from, size);
}

static inline void pmtrace_set_(volatile void *to, const void *from, size_t size) {
    memcpy((void *)(uintptr_t)to, from, size);
}

#ifndef PMTRACE_OFF

/* Notes in which function a line stands. Answers the line. */
const char *pmtrace_in_(const char *line, const char *function);

int pmtrace_open_at(const char *label, const char *file, const void *base, size_t length, unsigned line_size);
int pmtrace_forget_at(const char *label, const void *start, size_t length);
int pmtrace_close_at(const char *label);
int pmtrace_watch_at(const char *label);
int pmtrace_start_at(const char *label);
int pmtrace_stop_at(const char *label);

/* Whether a trace is open and the range is all in its pools. */
bool pmtrace_records(const void *start, size_t length);

void pmtrace_store_at(const char *label, volatile void *place, const volatile void *value, size_t size);
void *pmtrace_memcpy_at(const char *label, void *to, const void *from, size_t length);
void *pmtrace_memmove_at(const char *label, void *to, const void *from, size_t length);
void *pmtrace_memset_at(const char *label, void *to, int byte, size_t length);
void *pmtrace_memcpy_nontemporal_at(const char *label, void *to, const void *from, size_t length);
void *pmtrace_memset_nontemporal_at(const char *label, void *to, int byte, size_t length);

/* These answer `before`, where they put what stood there. */
void *pmtrace_exchange_at(const char *label, volatile void *place, size_t size, const volatile void *value,
                          volatile void *before);
void *pmtrace_fetch_at(const char *label, pmtrace_fetch_kind kind, volatile void *place, size_t size, const volatile void *value,
                       volatile void *before);

bool pmtrace_compare_exchange_at(const char *label, volatile void *place, size_t size, volatile void *expected,
                                 const volatile void *value);
void pmtrace_flush_at(const char *label, pmtrace_flush_kind kind, const void *start, size_t length);
void pmtrace_fence_at(const char *label, pmtrace_fence_kind kind);
void pmtrace_persist_at(const char *label, const void *start, size_t length);
void pmtrace_is_persist_at(const char *label, const void *start, size_t length);
void pmtrace_is_ordered_before_at(const char *label, const void *first, size_t first_length, const void *second,
                                  size_t second_length);

#else

static inline int pmtrace_open_at(const char *label, const char *file, const void *base, size_t length, unsigned line_size) {
    (void)label, (void)file, (void)base, (void)length, (void)line_size;
    return 0;
}

static inline int pmtrace_forget_at(const char *label, const void *start, size_t length) {
    (void)label, (void)start, (void)length;
    return 0;
}

static inline int pmtrace_close_at(const char *label) {
    (void)label;
    return 0;
}

static inline int pmtrace_watch_at(const char *label) {
    (void)label;
    return 0;
}

static inline int pmtrace_start_at(const char *label) {
    (void)label;
    return 0;
}

static inline int pmtrace_stop_at(const char *label) {
    (void)label;
    return 0;
}

static inline bool pmtrace_records(const void *start, size_t length) {
    (void)start, (void)length;
    return false;
}

static inline void pmtrace_store_at(const char *label, volatile void *place, const volatile void *value, size_t size) {
    (void)label;
    pmtrace_do_store_(place, size, value);
}

static inline void *pmtrace_memcpy_at(const char *label, void *to, const void *from, size_t length) {
    (void)label;
    return memcpy(to, from, length);
}

static inline void *pmtrace_memmove_at(const char *label, void *to, const void *from, size_t length) {
    (void)label;
    return memmove(to, from, length);
}

static inline void *pmtrace_memset_at(const char *label, void *to, int byte, size_t length) {
    (void)label;
    return memset(to, byte, length);
}

static inline void *pmtrace_memcpy_nontemporal_at(const char *label, void *to, const void *from, size_t length) {
    return pmtrace_memmove_at(label, to, from, length);
}

static inline void *pmtrace_memset_nontemporal_at(const char *label, void *to, int byte, size_t length) {
    return pmtrace_memset_at(label, to, byte, length);
}

static inline void *pmtrace_exchange_at(const char *label, volatile void *place, size_t size, const volatile void *value,
                                        volatile void *before) {
    uint64_t new_value[2] = {0, 0}, old_value[2] = {0, 0};
    (void)label;
    pmtrace_get_(new_value, value, size);
    pmtrace_do_exchange_(place, size, new_value, old_value);
    pmtrace_set_(before, old_value, size);
    return (void *)(uintptr_t)before;
}

static inline bool pmtrace_compare_exchange_at(const char *label, volatile void *place, size_t size, volatile void *expected,
                                               const volatile void *value) {
    uint64_t new_value[2] = {0, 0}, old_value[2] = {0, 0};
    (void)label;
    pmtrace_get_(new_value, value, size);
    pmtrace_get_(old_value, expected, size);
    bool done = pmtrace_do_compare_exchange_(place, size, old_value, new_value);
    if (!done)
        pmtrace_set_(expected, old_value, size);
    return done;
}

static inline void *pmtrace_fetch_at(const char *label, pmtrace_fetch_kind kind, volatile void *place, size_t size,
                                     const volatile void *value, volatile void *before) {
    uint64_t operand = 0;
    (void)label;
    pmtrace_get_(&operand, value, size);
    operand = pmtrace_do_fetch_(kind, place, size, operand);
    pmtrace_set_(before, &operand, size);
    return (void *)(uintptr_t)before;
}

static inline void pmtrace_flush_at(const char *label, pmtrace_flush_kind kind, const void *start, size_t length) {
    (void)label, (void)kind, (void)start, (void)length;
}

static inline void pmtrace_fence_at(const char *label, pmtrace_fence_kind kind) {
    (void)label, (void)kind;
}

static inline void pmtrace_persist_at(const char *label, const void *start, size_t length) {
    (void)label, (void)start, (void)length;
}

static inline void pmtrace_is_persist_at(const char *label, const void *start, size_t length) {
    (void)label, (void)start, (void)length;
}

static inline void pmtrace_is_ordered_before_at(const char *label, const void *first, size_t first_length, const void *second,
                                                size_t second_length) {
    (void)label, (void)first, (void)first_length, (void)second, (void)second_length;
}

#endif

#ifdef __cplusplus
}
#endif

#endif /* PMTRACE_H */

#if defined PMTRACE_IMPLEMENTATION && !defined PMTRACE_OFF && !defined PMTRACE_IMPLEMENTED_
#define PMTRACE_IMPLEMENTED_

#include <errno.h>
#include <fcntl.h>
#include <pthread.h>
#include <signal.h>
#include <stdarg.h>
#include <stdio.h>
#include <stdlib.h>
#include <sys/file.h>
#include <sys/ioctl.h>
#include <sys/mman.h>
#include <sys/stat.h>
#include <sys/syscall.h>
#include <time.h>
#include <unistd.h>

#ifndef SA_RESETHAND
#error "pmtrace.h: with PMTRACE_IMPLEMENTATION and -std=c11 let this be the first include of the file, or compile with -std=gnu11"
#endif

#ifdef __cplusplus
#define PMTRACE_OF_THREAD_ thread_local
#else
#define PMTRACE_OF_THREAD_ _Thread_local
#endif

enum {
    PMTRACE_MOST_EVENTS_ = 1000000,
    PMTRACE_MOST_THREADS_ = 256,
    PMTRACE_MOST_ASSERTED_ = 4096, /* bytes of a range of an assertion */
    PMTRACE_WORD_BYTES_ = 8,
    PMTRACE_MOST_LABEL_ = 400,  /* of a longer label the end is written */
    PMTRACE_LONGEST_LINE_ = 64, /* at least the bytes of an event's line */
    PMTRACE_SECONDS_ = 10       /* how long a call of another thread is waited for */
};

/* What the calls find: no trace; a trace; a trace of the process that this one was forked from; a trace that ended at exit. */
enum { PMTRACE_CLOSED_, PMTRACE_OPEN_, PMTRACE_FORKED_, PMTRACE_OVER_ };

/* Lines on their way to a file. A mapped file has `most` bytes of room in all, and `size` of them so far; of another file the room is
 * a buffer. The last byte of a line is put last, so what follows the last LF is no line. */
typedef struct pmtrace_output_ {
    int file;
    bool mapped;
    char *room;
    size_t used;  /* bytes that are put */
    size_t whole; /* those of them that are whole lines */
    size_t size;
    size_t most;
} pmtrace_output_;

/* A range of a pool: its address in the trace, its length, and where it is mapped. */
typedef struct pmtrace_range_ {
    uint64_t from;
    uint64_t length;
    uintptr_t at;
} pmtrace_range_;

/* What the kernel says of an address: the mapping that has it, and where the mapping shares a file, which one and the place in it. */
typedef struct pmtrace_file_ {
    bool shared;
    unsigned long device[2];
    unsigned long number;
    uint64_t offset;
    uintptr_t start, end; /* of the mapping; both 0 where there is none */
} pmtrace_file_;

/* A pool: its addresses in the trace, and the file that it is, at its first address. */
typedef struct pmtrace_pool_ {
    uint64_t from;
    uint64_t end; /* of the addresses that were mapped so far */
    pmtrace_file_ file;
    unsigned char *copy; /* of a watched pool: what the trace makes of it */
    void *kept;          /* a page of the file that stays mapped, or NULL */
    int kept_file;       /* a descriptor of the file, by its path alone, or -1 */
} pmtrace_pool_;

/* A mapping of a part of a pool. */
typedef struct pmtrace_mapping_ {
    pmtrace_range_ range;
    unsigned pool;
    bool shared;  /* other processes may have it */
    bool tracked; /* the kernel tells which pages change */
} pmtrace_mapping_;

/* What a thread did that its number stands for. */
typedef struct pmtrace_thread_ {
    bool given;
    bool flush_open; /* a flush was noted, and no fence since */
    uint64_t fences; /* how many there were, in the window and outside */
} pmtrace_thread_;

/* A line that was stored to or flushed while the window was closed. */
typedef struct pmtrace_line_ {
    uint64_t address;
    uint64_t fences;        /* of the flusher, when it flushed */
    unsigned short flusher; /* the thread's number and 1; or 0: not flushed since it was stored to */
    bool used;
} pmtrace_line_;

static pthread_mutex_t pmtrace_lock_ = PTHREAD_MUTEX_INITIALIZER;

/* What the lock guards. */
static struct {
    bool ended;   /* before the trace was closed: nothing more is noted */
    bool labeled; /* there is a labels file */
    bool watching;
    bool look_at_all;
    bool window;   /* what is noted is written */
    bool stored;   /* a store is in the trace */
    bool prepared; /* what happens once did */
    char *name;
    char *asked;    /* the name that the program gave: another one where the environment names a folder */
    char *cut_name; /* of the file that says where the trace was cut, from the root on */
    unsigned line_size;
    unsigned opened;    /* how often a trace was opened */
    uint64_t calls;     /* that took the lock */
    uint64_t events;    /* in the trace */
    uint64_t most_events;
    uint64_t seen;      /* events in the trace and outside of the window */
    uint64_t start_at;  /* the window opens when so many were seen */
    uint64_t stop_at;   /* it closes then */
    uint64_t closed_at; /* so many were seen when it closed last */
    uint64_t missing;   /* events that came after the trace's end */
    uint64_t outside;   /* calls that reached outside the pools */
    bool incomplete;    /* something else is not in the trace, which was told */
    const char *label;  /* of the call */
    int error;          /* errno as the call found it */
    int cancel;         /* whether the thread could be cancelled */
    int cancel_type;    /* and how */
    pmtrace_output_ trace;
    pmtrace_output_ labels;
    pmtrace_pool_ *pools;
    unsigned pool_count;
    pmtrace_range_ *based; /* what stands in the bases beside the trace */
    unsigned based_count;
    bool basing; /* bases are wanted */
    pmtrace_mapping_ *mappings;
    unsigned mapping_count;
    unsigned last_mapping; /* the one that was found last */
    pmtrace_thread_ threads[PMTRACE_MOST_THREADS_];
    pmtrace_line_ *lines; /* a table of what happened outside the window */
    size_t line_room;
    size_t line_count;
    char *ages; /* a table of lines, and which of their bytes were stored to last in this window */
    size_t age_room;
    size_t age_count;
    bool aging;             /* a window was closed: ages are followed */
    bool ages_known;        /* nothing is missing in the table */
    unsigned window_number; /* how often the window was opened and closed, from 1 */
    uint64_t aside;         /* claims of order that only the whole run can judge */
    int fault_file;         /* by which the kernel is told to follow the pages; or -1 */
    int pages_file;         /* by which it tells which changed */
} pmtrace_;

/* What is read and written without the lock. */
static int pmtrace_state_;          /* PMTRACE_CLOSED_ and so on */
static int pmtrace_broken_;         /* a call left without giving the lock back */
static int pmtrace_dying_;          /* a signal is about to end the program */
static uintptr_t pmtrace_owner_;    /* the thread that has the lock, or 0 */
static uint64_t pmtrace_lost_;      /* calls that came after a call never returned */
static int *pmtrace_here_;          /* 0 in a child, however it was made: memory that a child finds wiped */
static uint64_t *pmtrace_children_; /* calls of children that reached a shared pool: memory that they share */

/* The thread's number, and the trace in which it has it: how many had been opened by then. */
static PMTRACE_OF_THREAD_ unsigned pmtrace_number_, pmtrace_number_of_;
static PMTRACE_OF_THREAD_ int pmtrace_inside_; /* the thread has the lock, or is about to */
static pthread_key_t pmtrace_key_;             /* by which the end of a thread is seen */

static bool pmtrace_is_(const int *flag) {
    return __atomic_load_n(flag, __ATOMIC_SEQ_CST) != 0;
}

static int pmtrace_get_state_(void) {
    int state = __atomic_load_n(&pmtrace_state_, __ATOMIC_ACQUIRE);
    bool here = state != PMTRACE_OPEN_ || pmtrace_here_ == NULL || __atomic_load_n(pmtrace_here_, __ATOMIC_RELAXED) != 0;
    return here ? state : (int)PMTRACE_FORKED_;
}

/* --- telling --- */

__attribute__((format(printf, 1, 2))) static void pmtrace_tell_(const char *format, ...) {
    va_list values;
    char text[1024];
    va_start(values, format);
    vsnprintf(text, sizeof text, format, values);
    va_end(values);
    fprintf(stderr, "pmtrace: %s\n", text);
}

/* Beside a trace that is not all of what happened stands FILE.cut: one line, the number of the last event and why no more are there.
 * Where the disk is full it may be empty. */

static const char pmtrace_cut_ending_[] = ".cut";

/* Names the file, wherever the program goes from its folder, and removes that of an earlier trace. */
static bool pmtrace_begin_cut_(void) {
    char *folder = *pmtrace_.name == '/' ? NULL : getcwd(NULL, 0);
    const char *before = folder != NULL ? folder : "", *between = folder != NULL ? "/" : "";
    size_t size = strlen(before) + 1 + strlen(pmtrace_.name) + sizeof pmtrace_cut_ending_;
    free(pmtrace_.cut_name);
    pmtrace_.cut_name = (char *)malloc(size);
    if (pmtrace_.cut_name != NULL) {
        snprintf(pmtrace_.cut_name, size, "%s%s%s%s", before, between, pmtrace_.name, pmtrace_cut_ending_);
        unlink(pmtrace_.cut_name);
    }
    free(folder);
    return pmtrace_.cut_name != NULL;
}

/* Whether the trace is a file that others can stand beside, and no device. */
static bool pmtrace_is_in_folder_(void) {
    struct stat status;
    size_t length = strlen(pmtrace_.cut_name) + 1 - sizeof pmtrace_cut_ending_;
    pmtrace_.cut_name[length] = '\0';
    bool found = stat(pmtrace_.cut_name, &status) == 0 && S_ISREG(status.st_mode);
    pmtrace_.cut_name[length] = *pmtrace_cut_ending_;
    return found;
}

static void pmtrace_write_cut_(const char *why) {
    if (!pmtrace_is_in_folder_())
        return;
    int file = open(pmtrace_.cut_name, O_WRONLY | O_CREAT | O_TRUNC | O_CLOEXEC, 0666);
    if (file < 0 || dprintf(file, "%llu %s\n", (unsigned long long)pmtrace_.events, why) < 0)
        pmtrace_tell_("%s: %s", pmtrace_.cut_name, strerror(errno));
    if (file >= 0)
        close(file);
}

/* Nothing more is noted, which is told once. */
static void pmtrace_end_(const char *why) {
    if (!pmtrace_.ended) {
        pmtrace_tell_("%s: the trace ends after event %llu: %s", pmtrace_.name, (unsigned long long)pmtrace_.events, why);
        pmtrace_write_cut_(why);
    }
    pmtrace_.ended = true;
}

/* Something is not in the trace that goes on. */
static void pmtrace_miss_(const char *what) {
    pmtrace_tell_("%s: %s", pmtrace_.name, what);
    pmtrace_.incomplete = true;
}

/* --- a folder of traces: where the environment's PMTRACE_FOLDER names one, each process has its own there --- */

enum { PMTRACE_FOLDER_PATH_ = 4200, PMTRACE_HOW_BYTES_ = 32 };

/* The file TRACE.process of this process: a line of 32 bytes that says how it ended, and then the words of its command line, each with
 * a zero byte behind it. The name is whole, so that it holds wherever the program goes, and when a signal ends it. */
static char pmtrace_process_path_[PMTRACE_FOLDER_PATH_];
static pid_t pmtrace_process_;

/* Writes how the process ended: a word, as "status ", and a number. Signal handlers may call it. */
static void pmtrace_write_how_(const char *word, unsigned number) {
    char line[PMTRACE_HOW_BYTES_], digits[16];
    size_t length = strlen(word), count = 0;
    if (pmtrace_process_ == 0 || pmtrace_process_ != getpid())
        return;
    memset(line, ' ', sizeof line);
    memcpy(line, word, length);
    do {
        digits[count++] = (char)('0' + number % 10);
        number /= 10;
    } while (number > 0);
    while (count > 0)
        line[length++] = digits[--count];
    line[sizeof line - 1] = '\n';
    int file = open(pmtrace_process_path_, O_WRONLY | O_CLOEXEC);
    if (file >= 0) {
        if (pwrite(file, line, sizeof line, 0) < 0)
            errno = EIO;
        close(file);
    }
}

/* The C library tells the status to functions that were given to on_exit, for good: so not to those of a library that may be unloaded. */
#if defined __GLIBC__ && (!defined __PIC__ || defined __PIE__)
static void pmtrace_on_exit_(int status, void *nothing) {
    (void)nothing;
    pmtrace_write_how_("status ", (unsigned)status & 0xff);
}

static void pmtrace_wait_for_exit_(void) {
    static bool waits;
    if (!waits)
        on_exit(pmtrace_on_exit_, NULL);
    waits = true;
}
#else
static void pmtrace_wait_for_exit_(void) {
}
#endif

/* Writes the words of the command line, behind the line of an end that is not known yet. */
static bool pmtrace_write_words_(int to) {
    char piece[4096];
    int from = open("/proc/self/cmdline", O_RDONLY | O_CLOEXEC);
    bool fine = from >= 0 && dprintf(to, "%-*s\n", PMTRACE_HOW_BYTES_ - 1, "running") == PMTRACE_HOW_BYTES_;
    ssize_t length = 0;
    while (fine && (length = read(from, piece, sizeof piece)) > 0)
        fine = write(to, piece, (size_t)length) == length;
    if (from >= 0)
        close(from);
    return fine && length == 0;
}

/* Begins the file TRACE.process. */
static void pmtrace_begin_process_(const char *trace) {
    snprintf(pmtrace_process_path_, sizeof pmtrace_process_path_, "%s.process", trace);
    int file = open(pmtrace_process_path_, O_WRONLY | O_CREAT | O_TRUNC | O_CLOEXEC, 0666);
    if (file < 0 || !pmtrace_write_words_(file))
        pmtrace_tell_("%s: %s", pmtrace_process_path_, strerror(errno));
    if (file >= 0)
        close(file);
    pmtrace_process_ = getpid();
    pmtrace_wait_for_exit_();
}

/* Where the trace of this name goes: to the file itself, or FOLDER/NAME.PID, and FOLDER/NAME.PID.2 where that is there already. NULL
 * where there is no memory, or where the folder can't be taken. */
static char *pmtrace_trace_path_(const char *file) {
    const char *folder = getenv("PMTRACE_FOLDER"), *slash = strrchr(file, '/'), *name = slash != NULL ? slash + 1 : file;
    struct stat status;
    if (folder == NULL || *folder == '\0')
        return strdup(file);
    size_t size = strlen(folder) + strlen(name) + 64;
    char *path = *folder == '/' && size < PMTRACE_FOLDER_PATH_ - 16 ? (char *)malloc(size) : NULL;
    if (path == NULL) {
        pmtrace_tell_("%s: PMTRACE_FOLDER=%s is no whole name of a folder; nothing is recorded", file, folder);
        return NULL;
    }
    snprintf(path, size, "%s/%s.%ld", folder, name, (long)getpid());
    for (unsigned number = 2; lstat(path, &status) == 0; number++)
        snprintf(path, size, "%s/%s.%ld.%u", folder, name, (long)getpid(), number);
    pmtrace_begin_process_(path);
    return path;
}

/* --- the files --- */

enum { PMTRACE_STEP_ = 1 << 20, PMTRACE_BUFFER_ = 1 << 16 };

/* Writes a buffer's whole lines to a file that is not mapped. What could not be written is left in the buffer. */
static bool pmtrace_write_(pmtrace_output_ *output) {
    size_t out = 0;
    bool fine = true;
    while (out < output->whole && fine) {
        ssize_t more = write(output->file, output->room + out, output->whole - out);
        if (more > 0)
            out += (size_t)more;
        else
            fine = more < 0 && errno == EINTR;
    }
    memmove(output->room, output->room + out, output->used - out);
    output->used -= out;
    output->whole -= out;
    return fine;
}

/* Asks for more room behind the lines of a mapped file: as much as there is. False with errno where there is none. */
static bool pmtrace_grow_(pmtrace_output_ *output) {
    size_t step = PMTRACE_STEP_;
    if (step > output->most - output->size)
        step = output->most - output->size;
    int error = step == 0 ? EFBIG : 0;
    for (; step > 0; step /= 2) {
        error = posix_fallocate(output->file, (off_t)output->size, (off_t)step);
        if (error == 0) {
            output->size += step;
            return true;
        }
        if (error != ENOSPC && error != EFBIG && error != EDQUOT && error != EINTR)
            break;
    }
    errno = error;
    return false;
}

/* Whether there is room for so many bytes more. */
static bool pmtrace_has_room_(pmtrace_output_ *output, size_t length) {
    while (output->size - output->used < length) {
        if (!(output->mapped ? pmtrace_grow_(output) : pmtrace_write_(output)))
            return false;
    }
    return true;
}

/* Ends a line, of which all bytes but the LF are put. Whoever kills the program meanwhile finds it whole or without its end. */
static void pmtrace_put_end_(pmtrace_output_ *output, char *end) {
    __atomic_store_n(end, '\n', __ATOMIC_RELEASE);
    output->used = (size_t)(end - output->room) + 1;
    __atomic_store_n(&output->whole, output->used, __ATOMIC_RELEASE);
}

/* Cuts the file behind its last whole line. Signal handlers may call it. */
static bool pmtrace_cut_(const pmtrace_output_ *output) {
    int done = 0;
    if (output->mapped) {
        size_t whole = __atomic_load_n(&output->whole, __ATOMIC_ACQUIRE);
        do {
            done = ftruncate(output->file, (off_t)whole);
        } while (done != 0 && errno == EINTR);
    }
    return done == 0;
}

/* Cuts the file to its text, until more is put. */
static void pmtrace_trim_(pmtrace_output_ *output) {
    if (output->mapped && pmtrace_cut_(output))
        output->size = output->used;
}

/* Ends the file behind its last whole line. A call that a jump left may yet go on putting: its bytes then go nowhere. */
static bool pmtrace_finish_file_(pmtrace_output_ *output) {
    bool fine = output->mapped ? pmtrace_cut_(output) : pmtrace_write_(output);
    int error = errno;
    if (output->mapped && !pmtrace_is_(&pmtrace_broken_))
        munmap(output->room, output->most);
    else if (output->mapped)
        fine = mmap(output->room, output->most, PROT_READ | PROT_WRITE, MAP_PRIVATE | MAP_ANONYMOUS | MAP_FIXED | MAP_NORESERVE,
                    -1, 0) != MAP_FAILED &&
               fine;
    else
        free(output->room);
    if (close(output->file) != 0 && fine) {
        error = errno;
        fine = false;
    }
    output->room = NULL;
    errno = error;
    return fine;
}

/* In a child: the file is the parent's. */
static void pmtrace_drop_file_(pmtrace_output_ *output) {
    if (output->mapped)
        munmap(output->room, output->most);
    else
        free(output->room);
    close(output->file);
    output->room = NULL;
}

/* Opens the file for a new text, unless another process writes one there. */
static int pmtrace_open_file_(const char *path) {
    struct stat status;
    bool regular = stat(path, &status) != 0 || S_ISREG(status.st_mode);
    int file = open(path, regular ? O_RDWR | O_CREAT | O_CLOEXEC : O_WRONLY | O_CLOEXEC, 0666);
    if (file >= 0 && regular && ((flock(file, LOCK_EX | LOCK_NB) != 0 && errno == EWOULDBLOCK) || ftruncate(file, 0) != 0)) {
        int error = errno;
        close(file);
        errno = error;
        return -1;
    }
    return file;
}

/* Makes the room of an opened file: it is mapped where that can be. */
static bool pmtrace_make_room_(pmtrace_output_ *output, size_t most) {
    void *room = MAP_FAILED;
    output->used = output->whole = output->size = 0;
    output->most = most;
    output->mapped = posix_fallocate(output->file, 0, 1) == 0;
    if (output->mapped) {
        output->size = 1;
        room = mmap(NULL, most, PROT_READ | PROT_WRITE, MAP_SHARED, output->file, 0);
        output->mapped = room != MAP_FAILED;
        output->room = (char *)room;
    }
    if (!output->mapped) {
        output->room = (char *)malloc(PMTRACE_BUFFER_);
        output->size = PMTRACE_BUFFER_;
    }
    return output->room != NULL;
}

/* Makes the file NAME and its ending, for at most so many bytes. What goes wrong is told. */
static bool pmtrace_make_(pmtrace_output_ *output, const char *name, const char *ending, size_t most) {
    size_t size = strlen(name) + strlen(ending) + 1;
    char *path = (char *)malloc(size);
    output->file = -1;
    if (path != NULL) {
        snprintf(path, size, "%s%s", name, ending);
        output->file = pmtrace_open_file_(path);
    }
    bool made = output->file >= 0 && pmtrace_make_room_(output, most);
    if (!made) {
        const char *why = errno == EWOULDBLOCK ? "another recorder has it open" : strerror(errno);
        pmtrace_tell_("%s%s: %s; nothing is recorded", name, ending, why);
    }
    if (!made && output->file >= 0)
        close(output->file);
    free(path);
    return made;
}

/* --- the numbers of threads --- */

/* A thread has a number from its first event on. When it ends its number is given again, unless a flush of it is open: the next
 * fence by that number would complete that flush. Without an open flush nothing in the trace tells the two threads apart, since
 * all that an event's thread stands for is which fence completes which flush. */

/* Whether the calling thread has a number, which it gets now if it has none: the lowest. */
static bool pmtrace_has_number_(void) {
    unsigned number = 0;
    if (pmtrace_number_of_ == pmtrace_.opened)
        return true;
    while (number < PMTRACE_MOST_THREADS_ && pmtrace_.threads[number].given)
        number++;
    if (number == PMTRACE_MOST_THREADS_) {
        pmtrace_end_("a trace has at most 256 threads, and here is the 257th");
        return false;
    }
    pmtrace_.threads[number].given = true;
    pmtrace_.threads[number].flush_open = false;
    pmtrace_number_ = number;
    pmtrace_number_of_ = pmtrace_.opened;
    pthread_setspecific(pmtrace_key_, &pmtrace_);
    return true;
}

/* --- the functions of lines --- */

/* How many lines have room, and among how many of them one is looked for. */
enum { PMTRACE_MOST_SITES_ = 1 << 13, PMTRACE_MOST_TRIES_ = 32 };

/* The text of a line as PMTRACE_HERE has it, by whose address it is found, and the function that the line stands in. */
typedef struct pmtrace_site_ {
    const char *line, *function;
} pmtrace_site_;

/* Any thread adds to them, without the lock. They stay; without room a function is not known. */
static pmtrace_site_ pmtrace_sites_[PMTRACE_MOST_SITES_];

/* Where the line stands or is to stand; NULL without room. */
static pmtrace_site_ *pmtrace_site_of_(const char *line) {
    uintptr_t first = (uintptr_t)line ^ (uintptr_t)line / PMTRACE_MOST_SITES_;
    for (unsigned tried = 0; tried < PMTRACE_MOST_TRIES_; tried++) {
        pmtrace_site_ *site = &pmtrace_sites_[(first + tried) % PMTRACE_MOST_SITES_];
        const char *there = __atomic_load_n(&site->line, __ATOMIC_RELAXED);
        if (there == line || there == NULL)
            return site;
    }
    return NULL;
}

/* Whether the line stands there, where it gets the room if that is free. */
static bool pmtrace_take_site_(pmtrace_site_ *site, const char *line) {
    const char *there = __atomic_load_n(&site->line, __ATOMIC_RELAXED);
    bool taken = there == NULL && __atomic_compare_exchange_n(&site->line, &there, line, false, __ATOMIC_RELAXED, __ATOMIC_RELAXED);
    return taken || there == line;
}

const char *pmtrace_in_(const char *line, const char *function) {
    pmtrace_site_ *site = pmtrace_site_of_(line);
    while (site != NULL && !pmtrace_take_site_(site, line))
        site = pmtrace_site_of_(line);
    if (site != NULL && __atomic_load_n(&site->function, __ATOMIC_RELAXED) != function)
        __atomic_store_n(&site->function, function, __ATOMIC_RELAXED);
    return line;
}

/* The function that a label's line stands in; NULL of a label that is no such line. */
static const char *pmtrace_function_of_(const char *label) {
    const pmtrace_site_ *site = pmtrace_site_of_(label);
    bool known = site != NULL && __atomic_load_n(&site->line, __ATOMIC_RELAXED) == label;
    return known ? __atomic_load_n(&site->function, __ATOMIC_RELAXED) : NULL;
}

/* --- spelling --- */

/* Each of these puts bytes at a place, and answers the place behind them. */

static char *pmtrace_put_text_(char *at, const char *text) {
    size_t length = strlen(text);
    memcpy(at, text, length);
    return at + length;
}

static char *pmtrace_put_number_(char *at, uint64_t number) {
    char digits[20];
    unsigned count = 0;
    do {
        digits[count++] = (char)('0' + number % 10);
        number /= 10;
    } while (number > 0);
    while (count > 0)
        *at++ = digits[--count];
    return at;
}

/* A field of an event's line: an address; a number; bytes. */
static char *pmtrace_put_address_(char *at, uint64_t from) {
    at = pmtrace_put_text_(at, " 0x");
    for (unsigned digits = from == 0 ? 1 : (67 - (unsigned)__builtin_clzll(from)) / 4; digits > 0; digits--)
        *at++ = "0123456789abcdef"[from >> (4 * digits - 4) & 15];
    return at;
}

static char *pmtrace_put_count_(char *at, uint64_t count) {
    *at++ = ' ';
    return pmtrace_put_number_(at, count);
}

static char *pmtrace_put_bytes_(char *at, const unsigned char *bytes, size_t length) {
    *at++ = ' ';
    for (size_t byte = 0; byte < length; byte++) {
        *at++ = "0123456789abcdef"[bytes[byte] >> 4];
        *at++ = "0123456789abcdef"[bytes[byte] & 15];
    }
    return at;
}

static char *pmtrace_put_label_(char *at, const char *label) {
    size_t length = strlen(label);
    if (length > PMTRACE_MOST_LABEL_)
        label += length - PMTRACE_MOST_LABEL_;
    for (; *label != '\0'; label++)
        *at++ = (unsigned char)*label < ' ' ? '?' : *label;
    return at;
}

/* --- events --- */

/* The trace ends, since lines could not be written: those that are left, which are whole, are missing. */
static void pmtrace_lose_(void) {
    const char *why = strerror(errno);
    const pmtrace_output_ *trace = &pmtrace_.trace;
    for (size_t at = 0; !trace->mapped && at < trace->whole; at++) {
        if (trace->room[at] == '\n') {
            pmtrace_.events--;
            pmtrace_.missing++;
        }
    }
    pmtrace_end_(why);
}

static void pmtrace_lose_labels_(void) {
    pmtrace_tell_("%s.labels: the labels end here: %s", pmtrace_.name, strerror(errno));
    pmtrace_.labeled = false;
    pmtrace_finish_file_(&pmtrace_.labels);
}

/* Writes what waits for files that are not mapped, events before their labels. */
static void pmtrace_write_all_(void) {
    if (!pmtrace_.trace.mapped && !pmtrace_.ended && !pmtrace_write_(&pmtrace_.trace))
        pmtrace_lose_();
    if (pmtrace_.labeled && !pmtrace_.labels.mapped && !pmtrace_write_(&pmtrace_.labels))
        pmtrace_lose_labels_();
}

/* Whether an event can be put. Where it can't it is missing. */
static bool pmtrace_may_put_(void) {
    if (pmtrace_is_(&pmtrace_broken_))
        pmtrace_.ended = true;
    if (!pmtrace_.ended && pmtrace_.events == pmtrace_.most_events) {
        pmtrace_write_all_();
        pmtrace_end_("a trace has at most 1000000 events");
    }
    if (!pmtrace_.ended && !pmtrace_has_room_(&pmtrace_.trace, PMTRACE_LONGEST_LINE_))
        pmtrace_lose_();
    if (pmtrace_.ended)
        pmtrace_.missing++;
    return !pmtrace_.ended;
}

/* Begins the line of an event by its word and a thread's number: answers the place behind them, or NULL. */
static char *pmtrace_begin_by_(const char *word, unsigned number) {
    pmtrace_.seen++;
    if (!pmtrace_may_put_())
        return NULL;
    pmtrace_.events++;
    return pmtrace_put_count_(pmtrace_put_text_(pmtrace_.trace.room + pmtrace_.trace.used, word), number);
}

/* Begins the line of an event of the calling thread. */
static char *pmtrace_begin_(const char *word) {
    (void)(pmtrace_.ended || pmtrace_has_number_());
    return pmtrace_begin_by_(word, pmtrace_number_);
}

static void pmtrace_put_event_label_(void) {
    const char *function = pmtrace_function_of_(pmtrace_.label);
    if (!pmtrace_has_room_(&pmtrace_.labels, PMTRACE_LONGEST_LINE_ + 2 * PMTRACE_MOST_LABEL_)) {
        pmtrace_lose_labels_();
        return;
    }
    char *at = pmtrace_put_number_(pmtrace_.labels.room + pmtrace_.labels.used, pmtrace_.events);
    *at++ = ' ';
    at = pmtrace_put_label_(at, pmtrace_.label);
    if (function != NULL && function[0] != '\0') {
        *at++ = ' ';
        at = pmtrace_put_label_(at, function);
    }
    pmtrace_put_end_(&pmtrace_.labels, at);
}

/* Ends the event's line, and notes its label. */
static void pmtrace_finish_(char *at) {
    pmtrace_put_end_(&pmtrace_.trace, at);
    if (pmtrace_.labeled && pmtrace_.label != NULL)
        pmtrace_put_event_label_();
}

static void pmtrace_put_store_(uint64_t from, const unsigned char *bytes, size_t length) {
    char *at = pmtrace_begin_("store");
    if (at != NULL) {
        pmtrace_finish_(pmtrace_put_bytes_(pmtrace_put_address_(at, from), bytes, length));
        pmtrace_.stored = true;
    }
}

static void pmtrace_put_flush_(pmtrace_flush_kind kind, uint64_t line, unsigned number) {
    static const char *const words[] = {"clwb", "clflushopt", "clflush"};
    char *at = pmtrace_begin_by_(words[kind], number);
    if (at != NULL)
        pmtrace_finish_(pmtrace_put_address_(at, line));
}

static void pmtrace_put_fence_(pmtrace_fence_kind kind) {
    char *at = pmtrace_begin_(kind == PMTRACE_MFENCE ? "mfence" : "sfence");
    if (at != NULL)
        pmtrace_finish_(at);
}

/* --- pools and their mappings --- */

/* Where a further pool begins in the trace: at a multiple of this. */
#define PMTRACE_APART_ (UINT64_C(1) << 40)
#define PMTRACE_ADDRESSES_ (UINT64_C(1) << 48)

/* The first piece of a range, of at most this length. */
static pmtrace_range_ pmtrace_piece_(pmtrace_range_ range, uint64_t most) {
    if (range.length > most)
        range.length = most;
    return range;
}

/* The range without its first bytes. */
static pmtrace_range_ pmtrace_rest_(pmtrace_range_ range, uint64_t length) {
    range.from += length;
    range.at += (uintptr_t)length;
    range.length -= length;
    return range;
}

/* The first piece of a range that is inside one word. */
static pmtrace_range_ pmtrace_in_word_(pmtrace_range_ range) {
    return pmtrace_piece_(range, PMTRACE_WORD_BYTES_ - range.from % PMTRACE_WORD_BYTES_);
}

/* The part of a range that has these addresses; of length 0 where there is none. */
static pmtrace_range_ pmtrace_part_(pmtrace_range_ range, uint64_t first, uint64_t end) {
    pmtrace_range_ none = {first, 0, 0};
    if (first < range.from)
        first = range.from;
    if (end > range.from + range.length)
        end = range.from + range.length;
    return first < end ? pmtrace_piece_(pmtrace_rest_(range, first - range.from), end - first) : none;
}

/* What the kernel says of the mapping that has this address: one that is not shared where it says nothing. */
static pmtrace_file_ pmtrace_file_at_(uintptr_t address) {
    pmtrace_file_ file = {false, {0, 0}, 0, 0, 0, 0};
    char line[512], shared;
    unsigned long start, end, offset, device[2], number;
    bool whole = true, found = false;
    FILE *maps = fopen("/proc/self/maps", "re");
    while (maps != NULL && !found && fgets(line, sizeof line, maps) != NULL) {
        /* of a long line the first piece counts */
        bool begins = whole;
        whole = strchr(line, '\n') != NULL;
        found = begins &&
                sscanf(line, "%lx-%lx %*3c%c %lx %lx:%lx %lu", &start, &end, &shared, &offset, &device[0], &device[1], &number) ==
                    7 &&
                start <= address && address < end;
    }
    if (found) {
        file.start = start;
        file.end = end;
    }
    if (found && shared == 's' && number != 0) {
        file.shared = true;
        file.device[0] = device[0];
        file.device[1] = device[1];
        file.number = number;
        file.offset = offset + (address - start);
    }
    if (maps != NULL)
        fclose(maps);
    return file;
}

static bool pmtrace_is_same_file_(pmtrace_file_ one, pmtrace_file_ other) {
    return one.shared && other.shared && one.device[0] == other.device[0] && one.device[1] == other.device[1] &&
           one.number == other.number;
}

/* The pool that a mapping of this file is a part of, or the number of pools. */
static unsigned pmtrace_pool_of_file_(pmtrace_file_ file) {
    unsigned number = 0;
    while (number < pmtrace_.pool_count && !pmtrace_is_same_file_(pmtrace_.pools[number].file, file))
        number++;
    return number;
}

/* Where the pool after this one begins: the addresses of this one end there. */
static uint64_t pmtrace_end_of_room_(unsigned pool) {
    return pool + 1 < pmtrace_.pool_count ? pmtrace_.pools[pool + 1].from - pmtrace_.pools[pool + 1].from % PMTRACE_APART_
                                          : PMTRACE_ADDRESSES_;
}

static const pmtrace_mapping_ *pmtrace_mapping_at_(uintptr_t address) {
    for (unsigned tried = 0; tried < pmtrace_.mapping_count; tried++) {
        const pmtrace_mapping_ *mapping = &pmtrace_.mappings[pmtrace_.last_mapping];
        if (address - mapping->range.at < mapping->range.length)
            return mapping;
        pmtrace_.last_mapping = (pmtrace_.last_mapping + 1) % pmtrace_.mapping_count;
    }
    return NULL;
}

/* How many bytes from the address on, at most so many, are in no mapping. */
static size_t pmtrace_gap_at_(uintptr_t address, size_t length) {
    for (unsigned number = 0; number < pmtrace_.mapping_count; number++) {
        uintptr_t start = pmtrace_.mappings[number].range.at;
        if (start >= address && start - address < length)
            length = start - address;
    }
    return length;
}

/* --- finding what a call reaches --- */

static bool pmtrace_add_alias_(uintptr_t address, size_t length);

/* What lies outside is told once, and counted. */
static void pmtrace_tell_outside_(uintptr_t start, size_t length) {
    const char *label = pmtrace_.label != NULL ? pmtrace_.label : "", *then = pmtrace_.label != NULL ? ": " : "";
    pmtrace_range_ first = {0, 0, 0};
    if (pmtrace_.mapping_count > 0)
        first = pmtrace_.mappings[0].range;
    if (pmtrace_.outside == 0)
        pmtrace_tell_("%s%s%zu bytes at %p are not all in %s (%zu bytes at %p%s); what is outside is not recorded", label, then,
                      length, (void *)start, pmtrace_.mapping_count > 1 ? "the pools" : "the pool", (size_t)first.length,
                      (void *)first.at, pmtrace_.mapping_count > 1 ? " and others" : "");
    pmtrace_.outside++;
}

/* A walk over the pieces of a range that are in pools. */
typedef struct pmtrace_walk_ {
    uintptr_t start, at, end;
    bool told; /* that a part is outside */
} pmtrace_walk_;

static pmtrace_walk_ pmtrace_walk_over_(const volatile void *start, size_t length) {
    uintptr_t first = (uintptr_t)start;
    pmtrace_walk_ walk = {first, first, length > UINTPTR_MAX - first ? UINTPTR_MAX : first + length, false};
    return walk;
}

/* The next piece, or false at the end. What is in no pool is told once a walk. */
static bool pmtrace_next_(pmtrace_walk_ *walk, pmtrace_range_ *piece) {
    while (walk->at < walk->end) {
        const pmtrace_mapping_ *mapping = pmtrace_mapping_at_(walk->at);
        if (mapping != NULL) {
            *piece = pmtrace_piece_(pmtrace_rest_(mapping->range, walk->at - mapping->range.at), walk->end - walk->at);
            walk->at += (uintptr_t)piece->length;
            return true;
        }
        size_t gap = pmtrace_gap_at_(walk->at, walk->end - walk->at);
        if (pmtrace_add_alias_(walk->at, gap))
            continue;
        if (!walk->told)
            pmtrace_tell_outside_(walk->start, walk->end - walk->start);
        walk->told = true;
        walk->at += gap;
    }
    return false;
}

/* --- the window --- */

/* While the window is closed nothing is put. What happens to lines is followed in a table, so that at the start of the window those
 * that are not safe can be put. */

enum { PMTRACE_SAFE_ = 0xffff, PMTRACE_FIRST_LINES_ = 1024 };

/* The place in the table where the line is, or belongs. */
static pmtrace_line_ *pmtrace_find_line_(uint64_t address) {
    size_t at = (size_t)(address / pmtrace_.line_size * UINT64_C(0x9e3779b97f4a7c15) >> 20) & (pmtrace_.line_room - 1);
    while (pmtrace_.lines[at].used && pmtrace_.lines[at].address != address)
        at = (at + 1) & (pmtrace_.line_room - 1);
    return &pmtrace_.lines[at];
}

/* Makes room for one line more. */
static bool pmtrace_make_line_room_(void) {
    size_t room = pmtrace_.line_room, more = room == 0 ? (size_t)PMTRACE_FIRST_LINES_ : 2 * room;
    pmtrace_line_ *lines = pmtrace_.lines;
    if (2 * (pmtrace_.line_count + 1) <= room)
        return true;
    pmtrace_.lines = (pmtrace_line_ *)calloc(more, sizeof *lines);
    if (pmtrace_.lines == NULL) {
        pmtrace_.lines = lines;
        pmtrace_end_("there is no memory for what happens outside the window");
        return false;
    }
    pmtrace_.line_room = more;
    for (size_t at = 0; at < room; at++) {
        if (lines[at].used)
            *pmtrace_find_line_(lines[at].address) = lines[at];
    }
    free(lines);
    return true;
}

static void pmtrace_forget_lines_(void) {
    free(pmtrace_.lines);
    pmtrace_.lines = NULL;
    pmtrace_.line_room = pmtrace_.line_count = 0;
}

static bool pmtrace_is_safe_(const pmtrace_line_ *line) {
    return line->flusher == PMTRACE_SAFE_ || (line->flusher != 0 && pmtrace_.threads[line->flusher - 1].fences > line->fences);
}

/* The line that begins at the address was stored to. */
static void pmtrace_follow_store_(uint64_t address) {
    if (pmtrace_.ended || !pmtrace_make_line_room_())
        return;
    pmtrace_line_ *line = pmtrace_find_line_(address);
    if (!line->used) {
        line->used = true;
        line->address = address;
        pmtrace_.line_count++;
    }
    line->flusher = 0;
}

/* The calling thread flushed it. */
static void pmtrace_follow_flush_(pmtrace_flush_kind kind, uint64_t address) {
    if (pmtrace_.ended || pmtrace_.line_count == 0)
        return;
    pmtrace_line_ *line = pmtrace_find_line_(address);
    if (!line->used || pmtrace_is_safe_(line))
        return;
    line->flusher = kind == PMTRACE_CLFLUSH ? (unsigned short)PMTRACE_SAFE_ : (unsigned short)(pmtrace_number_ + 1);
    line->fences = pmtrace_.threads[pmtrace_number_].fences;
}

static int pmtrace_compare_lines_(const void *one, const void *other) {
    uint64_t first = ((const pmtrace_line_ *)one)->address, second = ((const pmtrace_line_ *)other)->address;
    return first < second ? -1 : first > second;
}

/* Leaves in the table the lines to be put, by rising address, and says how many: those that are not safe, and where the trace has
 * stores already those that were made safe too, since a claim may be about the order of both. */
static size_t pmtrace_gather_lines_(void) {
    size_t count = 0;
    for (size_t at = 0; at < pmtrace_.line_room; at++) {
        if (pmtrace_.lines[at].used && (pmtrace_.stored || !pmtrace_is_safe_(&pmtrace_.lines[at])))
            pmtrace_.lines[count++] = pmtrace_.lines[at];
    }
    if (count > 0)
        qsort(pmtrace_.lines, count, sizeof *pmtrace_.lines, pmtrace_compare_lines_);
    return count;
}

/* --- the ages of stores, where a window was closed --- */

/* A claim of order about bytes whose last store came before the window opened asks when older bytes became safe, which the trace does not
 * tell: it might pass there and fail in the whole run. For each line, which bytes were stored to last while the window was as it is, and
 * which before. */

enum { PMTRACE_MASK_BYTES_ = 256 / 8 }; /* of the longest line */

typedef struct pmtrace_age_ {
    uint64_t address;
    unsigned window; /* when the newer stores were made; 0: the place in the table is free */
    unsigned char newer[PMTRACE_MASK_BYTES_], older[PMTRACE_MASK_BYTES_];
} pmtrace_age_;

/* A place takes only so much of the masks as a line of the trace has, to whole words. */
static size_t pmtrace_age_size_(void) {
    size_t size = offsetof(pmtrace_age_, newer) + 2 * (size_t)pmtrace_.line_size / 8;
    return (size + sizeof(uint64_t) - 1) / sizeof(uint64_t) * sizeof(uint64_t);
}

static unsigned char *pmtrace_age_older_(pmtrace_age_ *age) {
    return age->newer + pmtrace_.line_size / 8;
}

/* The place in the table where the line is, or belongs. */
static pmtrace_age_ *pmtrace_find_age_(char *ages, size_t room, uint64_t address) {
    size_t at = (size_t)(address / pmtrace_.line_size * UINT64_C(0x9e3779b97f4a7c15) >> 20) & (room - 1);
    for (;;) {
        pmtrace_age_ *age = (pmtrace_age_ *)(void *)(ages + at * pmtrace_age_size_());
        if (age->window == 0 || age->address == address)
            return age;
        at = (at + 1) & (room - 1);
    }
}

static void pmtrace_forget_ages_(void) {
    free(pmtrace_.ages);
    pmtrace_.ages = NULL;
    pmtrace_.age_room = pmtrace_.age_count = 0;
}

/* Makes room for one line more. Without memory nothing is known. */
static bool pmtrace_make_age_room_(void) {
    const size_t size = pmtrace_age_size_(), room = pmtrace_.age_room, more = room == 0 ? 1024 : 2 * room;
    if (2 * (pmtrace_.age_count + 1) <= room)
        return true;
    char *ages = (char *)calloc(more, size);
    if (ages == NULL) {
        pmtrace_.ages_known = false;
        return false;
    }
    for (size_t at = 0; at < room; at++) {
        pmtrace_age_ *age = (pmtrace_age_ *)(void *)(pmtrace_.ages + at * size);
        if (age->window != 0)
            memcpy((void *)pmtrace_find_age_(ages, more, age->address), age, size);
    }
    free(pmtrace_.ages);
    pmtrace_.ages = ages;
    pmtrace_.age_room = more;
    return true;
}

/* Newer stores of an earlier window are older ones now. */
static void pmtrace_let_age_(pmtrace_age_ *age) {
    for (unsigned at = 0; age->window != pmtrace_.window_number && at < pmtrace_.line_size / 8; at++) {
        pmtrace_age_older_(age)[at] |= age->newer[at];
        age->newer[at] = 0;
    }
    age->window = pmtrace_.window_number;
}

/* Bytes of one line were stored to. */
static void pmtrace_age_store_(uint64_t from, size_t length) {
    uint64_t line = from - from % pmtrace_.line_size;
    if (!pmtrace_.aging || !pmtrace_make_age_room_())
        return;
    pmtrace_age_ *age = pmtrace_find_age_(pmtrace_.ages, pmtrace_.age_room, line);
    if (age->window == 0) {
        age->address = line;
        age->window = pmtrace_.window_number;
        pmtrace_.age_count++;
    }
    pmtrace_let_age_(age);
    for (unsigned byte = (unsigned)(from - line); length > 0; byte++, length--) {
        age->newer[byte / 8] |= (unsigned char)(1u << byte % 8);
        pmtrace_age_older_(age)[byte / 8] &= (unsigned char)~(1u << byte % 8);
    }
}

/* Whether a byte of the range was stored to last before the window opened, or may have been. */
static bool pmtrace_is_older_(pmtrace_range_ range) {
    bool older = pmtrace_.aging && !pmtrace_.ages_known;
    for (uint64_t at = range.from; pmtrace_.aging && pmtrace_.age_room > 0 && !older && at < range.from + range.length; at++) {
        unsigned byte = (unsigned)(at % pmtrace_.line_size);
        pmtrace_age_ *age = pmtrace_find_age_(pmtrace_.ages, pmtrace_.age_room, at - byte);
        if (age->window != 0)
            pmtrace_let_age_(age);
        older = age->window != 0 && (pmtrace_age_older_(age)[byte / 8] >> byte % 8 & 1) != 0;
    }
    return older;
}

/* The stores of a line of the trace: `store T 0xA BYTES`. */
static void pmtrace_age_line_(const char *line, const char *end) {
    static const char word[] = "store ";
    char *after;
    if ((size_t)(end - line) < sizeof word || memcmp(line, word, sizeof word - 1) != 0)
        return;
    (void)strtoul(line + sizeof word - 1, &after, 10);
    uint64_t from = strtoull(after, &after, 16);
    if (after < end)
        pmtrace_age_store_(from, (size_t)(end - after - 1) / 2);
}

/* From here on ages are followed. What was stored in the first window stands in the trace, if that can be read. */
static void pmtrace_begin_aging_(void) {
    if (pmtrace_.aging)
        return;
    const char *line = pmtrace_.trace.room, *end = line + pmtrace_.trace.whole;
    pmtrace_.aging = true;
    pmtrace_.ages_known = pmtrace_.trace.mapped || pmtrace_.events == 0;
    while (pmtrace_.trace.mapped && line < end) {
        const char *next = (const char *)memchr(line, '\n', (size_t)(end - line));
        pmtrace_age_line_(line, next);
        line = next + 1;
    }
}

/* --- which pages changed --- */

/* Linux 6.7 and later tell which pages of a range were written to since they were asked last (userfaultfd(2), asynchronous write
 * protection; ioctl_pagemap_scan(2)). The program notices nothing but a page fault for each page. A page that is not there
 * counts as written to. */

#if defined __linux__ && defined SYS_userfaultfd && __has_include(<linux/userfaultfd.h>)
#include <linux/userfaultfd.h>
#endif

#ifdef UFFDIO_REGISTER_MODE_WP

/* struct page_region and struct pm_scan_arg of linux/fs.h, which older headers don't have. */
typedef struct pmtrace_region_ {
    uint64_t start, end, categories;
} pmtrace_region_;

typedef struct pmtrace_scan_ {
    uint64_t size, flags, start, end, walk_end, regions, region_count, most_pages;
    uint64_t inverted, all_of, any_of, answered;
} pmtrace_scan_;

#define PMTRACE_SCAN_ _IOWR('f', 16, pmtrace_scan_)

enum {
    PMTRACE_PROTECT_ = 1,      /* PM_SCAN_WP_MATCHING */
    PMTRACE_CHECK_ = 2,        /* PM_SCAN_CHECK_WPASYNC */
    PMTRACE_WRITTEN_ = 2,      /* PAGE_IS_WRITTEN */
    PMTRACE_USER_MODE_ = 1,    /* UFFD_USER_MODE_ONLY */
    PMTRACE_FEATURES_ = 0xa000 /* UFFD_FEATURE_WP_UNPOPULATED and UFFD_FEATURE_WP_ASYNC */
};

static void pmtrace_stop_tracking_(void) {
    if (pmtrace_.fault_file >= 0)
        close(pmtrace_.fault_file);
    if (pmtrace_.pages_file >= 0)
        close(pmtrace_.pages_file);
    pmtrace_.fault_file = pmtrace_.pages_file = -1;
}

static uintptr_t pmtrace_page_of_(uintptr_t address) {
    return address - address % (uintptr_t)sysconf(_SC_PAGESIZE);
}

/* Asks the kernel to follow what is written, once a trace. */
static bool pmtrace_can_track_(void) {
    if (pmtrace_.fault_file >= 0)
        return true;
    struct uffdio_api api;
    memset(&api, 0, sizeof api);
    api.api = UFFD_API;
    api.features = PMTRACE_FEATURES_;
    pmtrace_.fault_file = (int)syscall(SYS_userfaultfd, O_CLOEXEC | PMTRACE_USER_MODE_);
    pmtrace_.pages_file = open("/proc/self/pagemap", O_RDONLY | O_CLOEXEC);
    if (pmtrace_.fault_file >= 0 && pmtrace_.pages_file >= 0 && ioctl(pmtrace_.fault_file, UFFDIO_API, &api) == 0)
        return true;
    pmtrace_stop_tracking_();
    return false;
}

/* Asks for the pages that were written to; with `protect` the same is not answered again. Answers how many regions. */
static long pmtrace_scan_pages_(uintptr_t start, uintptr_t end, bool protect, pmtrace_region_ *regions, unsigned count,
                                uintptr_t *done) {
    pmtrace_scan_ scan;
    memset(&scan, 0, sizeof scan);
    scan.size = sizeof scan;
    scan.flags = protect ? PMTRACE_PROTECT_ | PMTRACE_CHECK_ : 0;
    scan.start = pmtrace_page_of_(start);
    scan.end = pmtrace_page_of_(end + (uintptr_t)sysconf(_SC_PAGESIZE) - 1);
    scan.regions = (uint64_t)(uintptr_t)regions;
    scan.region_count = count;
    scan.all_of = scan.answered = PMTRACE_WRITTEN_;
    long found;
    do {
        found = ioctl(pmtrace_.pages_file, PMTRACE_SCAN_, &scan);
    } while (found < 0 && errno == EINTR);
    *done = (uintptr_t)scan.walk_end;
    return found;
}

/* The next piece that was written to, taken off what is left. False at the end, where nothing is left; or where the kernel does not
 * tell, where something is. */
static bool pmtrace_next_changed_(pmtrace_range_ *left, pmtrace_range_ *changed) {
    pmtrace_region_ region;
    uintptr_t done, end = left->at + (uintptr_t)left->length;
    if (left->length == 0)
        return false;
    long found = pmtrace_scan_pages_(left->at, end, true, &region, 1, &done);
    if (found < 0)
        return false;
    if (found == 0) {
        *left = pmtrace_rest_(*left, left->length);
        return false;
    }
    uintptr_t first = region.start > left->at ? (uintptr_t)region.start : left->at;
    uintptr_t last = region.end < end ? (uintptr_t)region.end : end;
    *changed = pmtrace_piece_(pmtrace_rest_(*left, first - left->at), last - first);
    *left = pmtrace_rest_(*left, last - left->at);
    return true;
}

/* Whether the page of an address was written to since it was asked last. */
static bool pmtrace_is_changed_(uintptr_t at) {
    pmtrace_region_ region;
    uintptr_t done;
    return pmtrace_scan_pages_(at, at + 1, false, &region, 1, &done) != 0;
}

/* From here on the pages of the range that are written to are told. */
static bool pmtrace_track_(pmtrace_range_ range) {
    if (pmtrace_.look_at_all || !pmtrace_can_track_())
        return false;
    struct uffdio_register ask;
    memset(&ask, 0, sizeof ask);
    ask.range.start = pmtrace_page_of_(range.at);
    ask.range.len = pmtrace_page_of_(range.at + (uintptr_t)range.length + (uintptr_t)sysconf(_SC_PAGESIZE) - 1) - ask.range.start;
    ask.mode = UFFDIO_REGISTER_MODE_WP;
    if (ioctl(pmtrace_.fault_file, UFFDIO_REGISTER, &ask) != 0)
        return false;
    pmtrace_range_ changed;
    while (pmtrace_next_changed_(&range, &changed))
        ;
    return range.length == 0;
}

#else

static void pmtrace_stop_tracking_(void) {
}

static bool pmtrace_next_changed_(pmtrace_range_ *left, pmtrace_range_ *changed) {
    (void)left, (void)changed;
    return false;
}

static bool pmtrace_is_changed_(uintptr_t at) {
    (void)at;
    return true;
}

static bool pmtrace_track_(pmtrace_range_ range) {
    (void)range;
    return false;
}

#endif

/* --- the watch: stores that the recorder was not told of --- */

static void pmtrace_note_word_(uint64_t from, const unsigned char *bytes, size_t length);

static void pmtrace_unkeep_file_(const pmtrace_pool_ *pool);

static unsigned char *pmtrace_copied_(const pmtrace_pool_ *pool, uint64_t from) {
    return pool->copy + (from - (pool->from - pool->from % PMTRACE_WORD_BYTES_));
}

/* The pools are no more. */
static void pmtrace_free_pools_(void) {
    for (unsigned number = 0; number < pmtrace_.pool_count; number++) {
        free(pmtrace_.pools[number].copy);
        pmtrace_unkeep_file_(&pmtrace_.pools[number]);
    }
    free(pmtrace_.pools);
    pmtrace_.pools = NULL;
    pmtrace_.pool_count = 0;
}

/* For what reads memory that other threads may be writing. Clang judges atomic reads unless all judging is off. */
#ifdef __has_feature
#if __has_feature(thread_sanitizer)
#define PMTRACE_UNSANITIZED_ __attribute__((noinline, disable_sanitizer_instrumentation))
#endif
#endif
#ifndef PMTRACE_UNSANITIZED_
#define PMTRACE_UNSANITIZED_ __attribute__((no_sanitize("thread"), no_sanitize("address")))
#endif

/* The word at an aligned address, as it stands at one moment. Other threads may be writing there, which is for the program to
 * answer; and of the pool's first and last word a part may be no part of it. */
PMTRACE_UNSANITIZED_ static uint64_t pmtrace_load_(uintptr_t at) {
    return __atomic_load_n((const volatile pmtrace_bytes8_ *)at, __ATOMIC_RELAXED);
}

/* Notes as a store what changed in the word that a piece lies in, as far as the pool goes: what a mapping ends inside of would be noted
 * by halves. The memory behind it is the file's, up to the end of a page. */
static void pmtrace_notice_word_(const pmtrace_pool_ *pool, pmtrace_range_ piece) {
    size_t into_word = (size_t)(piece.from % PMTRACE_WORD_BYTES_), first = 0, end = PMTRACE_WORD_BYTES_;
    if (pool->from > piece.from - into_word)
        first = (size_t)(pool->from - (piece.from - into_word));
    if (pool->end < piece.from - into_word + end)
        end = (size_t)(pool->end - (piece.from - into_word));
    uint64_t word = pmtrace_load_(piece.at - into_word);
    unsigned char now[PMTRACE_WORD_BYTES_], *before = pmtrace_copied_(pool, piece.from - into_word);
    memcpy(now, &word, sizeof now);
    while (first < end && now[first] == before[first])
        first++;
    while (end > first && now[end - 1] == before[end - 1])
        end--;
    if (first < end) {
        memcpy(before + first, now + first, end - first);
        pmtrace_note_word_(piece.from - into_word + first, now + first, end - first);
    }
}

/* How many bytes of a range of whole words are as in the copy, up to the first word that is not. */
PMTRACE_UNSANITIZED_ static uint64_t pmtrace_same_(const pmtrace_pool_ *pool, pmtrace_range_ range) {
    const volatile pmtrace_bytes8_ *now = (const volatile pmtrace_bytes8_ *)range.at;
    const pmtrace_bytes8_ *before = (const pmtrace_bytes8_ *)(const void *)pmtrace_copied_(pool, range.from);
    uint64_t words = range.length / PMTRACE_WORD_BYTES_, same = 0;
    while (same < words && __atomic_load_n(&now[same], __ATOMIC_RELAXED) == before[same])
        same++;
    return same * PMTRACE_WORD_BYTES_;
}

/* Notes as stores what the program wrote to a range of one mapping without the recorder. */
static void pmtrace_notice_(unsigned pool_number, pmtrace_range_ range) {
    const pmtrace_pool_ *pool = &pmtrace_.pools[pool_number];
    while (pool->copy != NULL && range.length > 0) {
        if (range.from % PMTRACE_WORD_BYTES_ == 0)
            range = pmtrace_rest_(range, pmtrace_same_(pool, range));
        pmtrace_range_ word = pmtrace_in_word_(range);
        if (word.length > 0)
            pmtrace_notice_word_(pool, word);
        range = pmtrace_rest_(range, word.length);
    }
}

/* Whether a page can be read: the kernel reads a set of signals there, and refuses what to do with them. */
static bool pmtrace_is_page_readable_(uintptr_t page) {
    return syscall(SYS_rt_sigprocmask, -1L, page, NULL, sizeof(uint64_t)) == 0 || errno != EFAULT;
}

/* Whether a range can be read: where it is not mapped any more, or protected, or its file is cut off, reading it would end the
 * program. */
static bool pmtrace_is_readable_(pmtrace_range_ range) {
    const uintptr_t page = (uintptr_t)sysconf(_SC_PAGESIZE), end = range.at + (uintptr_t)range.length;
    uintptr_t at = range.at - range.at % page;
    const int populate_read = 22; /* MADV_POPULATE_READ, since Linux 5.14 */
    int answer;
    do {
        answer = madvise((void *)at, end - at, populate_read);
    } while (answer != 0 && (errno == EINTR || errno == EAGAIN));
    if (answer == 0 || errno != EINVAL)
        return answer == 0;
    while (at < end && pmtrace_is_page_readable_(at))
        at += page;
    return at >= end;
}

/* The same of what a mapping has from one place of the trace to another, if it can be read. */
static void pmtrace_notice_part_(const pmtrace_mapping_ *mapping, uint64_t first, uint64_t end) {
    pmtrace_range_ part = pmtrace_part_(mapping->range, first, end);
    if (part.length > 0 && pmtrace_is_readable_(part))
        pmtrace_notice_(mapping->pool, part);
}

/* The same of the lines of a piece, before a call does something to them. Of a line that its mapping has a part of, others may have
 * the rest; a byte that two of them have is looked at once, or a store that comes in between is noted by halves. */
static void pmtrace_notice_lines_(pmtrace_range_ piece) {
    if (!pmtrace_.watching || pmtrace_.ended || piece.length == 0)
        return;
    const pmtrace_mapping_ *own = pmtrace_mapping_at_(piece.at);
    uint64_t first = piece.from - piece.from % pmtrace_.line_size, end = piece.from + piece.length + pmtrace_.line_size - 1;
    end -= end % pmtrace_.line_size;
    pmtrace_range_ lines = pmtrace_part_(own->range, first, end);
    pmtrace_notice_(own->pool, lines);
    for (unsigned number = 0; lines.length < end - first && number < pmtrace_.mapping_count; number++) {
        const pmtrace_mapping_ *mapping = &pmtrace_.mappings[number];
        pmtrace_notice_part_(mapping, first, lines.from);
        pmtrace_notice_part_(mapping, lines.from + lines.length, end);
    }
}

static void pmtrace_remove_mapping_(unsigned number) {
    pmtrace_.mappings[number] = pmtrace_.mappings[--pmtrace_.mapping_count];
    pmtrace_.last_mapping = 0;
}

/* A mapping is gone, of which nobody told: what was stored there since the last look is lost. */
static void pmtrace_lose_mapping_(unsigned number) {
    pmtrace_miss_("a watched pool was unmapped, protected or cut off without pmtrace_forget; plain stores since the last look "
                  "are not in the trace");
    pmtrace_remove_mapping_(number);
}

/* Looks at the pages of a mapping that changed, or at all of them. False where it is gone. */
static bool pmtrace_look_at_(const pmtrace_mapping_ *mapping) {
    pmtrace_range_ changed, left = mapping->range;
    while (mapping->tracked && pmtrace_next_changed_(&left, &changed)) {
        if (!pmtrace_is_readable_(changed))
            return false;
        pmtrace_notice_(mapping->pool, changed);
    }
    if (mapping->tracked && left.length == 0)
        return true;
    if (!pmtrace_is_readable_(mapping->range))
        return false;
    pmtrace_notice_(mapping->pool, mapping->range);
    return true;
}

/* Notes as stores what the program wrote to all pools without the recorder. */
static void pmtrace_look_(void) {
    unsigned number = 0;
    while (pmtrace_.watching && !pmtrace_.ended && number < pmtrace_.mapping_count) {
        if (pmtrace_look_at_(&pmtrace_.mappings[number]))
            number++;
        else
            pmtrace_lose_mapping_(number);
    }
}

/* Whether the word at an address, which was seen to differ, may have been stored to through a mapping of its pool. */
static bool pmtrace_is_told_(uint64_t from) {
    for (unsigned number = 0; number < pmtrace_.mapping_count; number++) {
        const pmtrace_mapping_ *mapping = &pmtrace_.mappings[number];
        uint64_t into = from - mapping->range.from;
        if (into < mapping->range.length && (!mapping->tracked || pmtrace_is_changed_(mapping->range.at + (uintptr_t)into)))
            return true;
    }
    return false;
}

/* Compares all of a mapping, and says how many words no page told of: they were written to by other means. */
static uint64_t pmtrace_compare_(const pmtrace_mapping_ *mapping) {
    const pmtrace_pool_ *pool = &pmtrace_.pools[mapping->pool];
    pmtrace_range_ left = mapping->range;
    uint64_t untold = 0;
    while (left.length > 0 && !pmtrace_.ended) {
        if (left.from % PMTRACE_WORD_BYTES_ == 0)
            left = pmtrace_rest_(left, pmtrace_same_(pool, left));
        pmtrace_range_ word = pmtrace_in_word_(left);
        uint64_t seen = pmtrace_.seen;
        if (word.length > 0)
            pmtrace_notice_word_(pool, word);
        untold += pmtrace_.seen > seen && !pmtrace_is_told_(word.from);
        left = pmtrace_rest_(left, word.length);
    }
    return untold;
}

/* The last look: at what the pages tell, and then at everything. */
static void pmtrace_look_last_(void) {
    uint64_t untold = 0;
    unsigned number = 0;
    pmtrace_look_();
    while (pmtrace_.watching && !pmtrace_.ended && number < pmtrace_.mapping_count) {
        const pmtrace_mapping_ *mapping = &pmtrace_.mappings[number];
        if (mapping->tracked && !pmtrace_is_readable_(mapping->range)) {
            pmtrace_lose_mapping_(number);
            continue;
        }
        if (mapping->tracked)
            untold += pmtrace_compare_(mapping);
        number++;
    }
    if (untold > 0)
        pmtrace_miss_("a watched pool was changed by other means than its mappings; this stands at the end of the trace "
                      "(PMTRACE_WATCH=all looks at everything each time)");
}

/* Makes the pool's copy as long as the pool. */
static bool pmtrace_make_copy_(pmtrace_pool_ *pool) {
    size_t length = (size_t)(pool->end - pool->from + 2 * PMTRACE_WORD_BYTES_);
    unsigned char *copy = (unsigned char *)realloc(pool->copy, length);
    if (copy != NULL)
        pool->copy = copy;
    return copy != NULL;
}

/* How many bytes of a range, from its first on, a mapping has that is watched already. */
static uint64_t pmtrace_watched_(pmtrace_range_ range) {
    for (unsigned number = 0; pmtrace_.watching && number < pmtrace_.mapping_count; number++) {
        pmtrace_range_ part = pmtrace_part_(pmtrace_.mappings[number].range, range.from, range.from + range.length);
        if (part.length > 0 && part.from == range.from)
            return part.length;
    }
    return 0;
}

/* Takes what stands in a mapping for what the trace makes of it, from here on. Of what another mapping shows the copy stays, since a
 * store through that one may not have been noticed yet. */
static void pmtrace_begin_to_watch_(pmtrace_mapping_ *mapping) {
    const pmtrace_pool_ *pool = &pmtrace_.pools[mapping->pool];
    mapping->tracked = pmtrace_track_(mapping->range);
    for (pmtrace_range_ left = mapping->range; left.length > 0;) {
        uint64_t watched = pmtrace_watched_(left);
        pmtrace_range_ word = pmtrace_in_word_(left);
        size_t into_word = (size_t)(word.from % PMTRACE_WORD_BYTES_);
        if (watched > 0) {
            left = pmtrace_rest_(left, watched);
            continue;
        }
        uint64_t now = pmtrace_load_(word.at - into_word);
        memcpy(pmtrace_copied_(pool, word.from), (const unsigned char *)&now + into_word, (size_t)word.length);
        left = pmtrace_rest_(left, word.length);
    }
}

/* --- the bases: what stands in the pools when recording begins, for images of crashes --- */

enum { PMTRACE_BASE_PIECE_ = 1 << 16, PMTRACE_BASE_PATH_ = 4200 };

/* The file FILE.KIND of the first pool, FILE.KIND2 of the second one, and so on. */
static void pmtrace_name_base_(char path[PMTRACE_BASE_PATH_], const char *kind, unsigned pool) {
    if (pool == 0)
        snprintf(path, PMTRACE_BASE_PATH_, "%s.%s", pmtrace_.name, kind);
    else
        snprintf(path, PMTRACE_BASE_PATH_, "%s.%s%u", pmtrace_.name, kind, pool + 1);
}

/* Removes the bases that stand beside the trace: they are of another one, or no longer right. */
static void pmtrace_remove_bases_(void) {
    char base[PMTRACE_BASE_PATH_], origin[PMTRACE_BASE_PATH_];
    bool removed = true;
    for (unsigned pool = 0; removed; pool++) {
        pmtrace_name_base_(base, "base", pool);
        pmtrace_name_base_(origin, "origin", pool);
        bool base_removed = unlink(base) == 0, origin_removed = unlink(origin) == 0;
        removed = base_removed || origin_removed;
    }
    free(pmtrace_.based);
    pmtrace_.based = NULL;
    pmtrace_.based_count = 0;
}

/* From here on there is no base, which is told. */
static void pmtrace_lose_bases_(unsigned pool, const char *why) {
    char path[PMTRACE_BASE_PATH_];
    pmtrace_name_base_(path, "base", pool);
    pmtrace_tell_("%s: %s; there is no base beside the trace", path, why);
    pmtrace_remove_bases_();
    pmtrace_.basing = false;
    pmtrace_.incomplete = true;
}

static bool pmtrace_write_base_at_(int file, const char *bytes, size_t length, uint64_t offset) {
    size_t done = 0;
    while (done < length) {
        ssize_t more = pwrite(file, bytes + done, length - done, (off_t)(offset + done));
        if (more <= 0 && errno != EINTR)
            return false;
        done += more > 0 ? (size_t)more : 0;
    }
    return true;
}

/* Copies a piece of a pool to its base; a piece of zeros only is left to be a hole. */
static bool pmtrace_copy_to_base_(int file, pmtrace_range_ piece, uint64_t offset) {
    static const char zeros[PMTRACE_BASE_PIECE_] = {0};
    if (!pmtrace_is_readable_(piece)) {
        errno = EFAULT;
        return false;
    }
    const char *bytes = (const char *)piece.at;
    return memcmp(bytes, zeros, (size_t)piece.length) == 0 || pmtrace_write_base_at_(file, bytes, (size_t)piece.length, offset);
}

/* Makes the base long enough for the range, and copies it there piece by piece. */
static bool pmtrace_fill_base_(int file, const pmtrace_pool_ *pool, pmtrace_range_ range) {
    struct stat status;
    off_t end = (off_t)(range.from + range.length - pool->from);
    bool done = fstat(file, &status) == 0 && (status.st_size >= end || ftruncate(file, end) == 0);
    while (done && range.length > 0) {
        pmtrace_range_ piece = pmtrace_piece_(range, PMTRACE_BASE_PIECE_);
        done = pmtrace_copy_to_base_(file, piece, piece.from - pool->from);
        range = pmtrace_rest_(range, piece.length);
    }
    return done;
}

/* Writes one line: the pool's first address in the trace. */
static bool pmtrace_write_origin_(unsigned number) {
    char path[PMTRACE_BASE_PATH_];
    pmtrace_name_base_(path, "origin", number);
    FILE *origin = fopen(path, "we");
    bool done = origin != NULL && fprintf(origin, "0x%llx\n", (unsigned long long)pmtrace_.pools[number].from) > 0;
    if (origin != NULL && fclose(origin) != 0)
        done = false;
    return done;
}

static bool pmtrace_write_base_(unsigned number, pmtrace_range_ range) {
    char path[PMTRACE_BASE_PATH_];
    pmtrace_name_base_(path, "base", number);
    int file = open(path, O_WRONLY | O_CREAT | O_CLOEXEC, 0666);
    bool done = file >= 0 && pmtrace_fill_base_(file, &pmtrace_.pools[number], range) && pmtrace_write_origin_(number);
    int error = errno;
    if (file >= 0 && close(file) != 0 && done)
        return false;
    errno = error;
    return done;
}

/* The first part of a range that is in no base yet. */
static pmtrace_range_ pmtrace_next_unbased_(pmtrace_range_ range) {
    for (unsigned number = 0; number < pmtrace_.based_count; number++) {
        pmtrace_range_ known = pmtrace_part_(pmtrace_.based[number], range.from, range.from + range.length);
        if (known.length > 0 && known.from == range.from) {
            range = pmtrace_rest_(range, known.length);
            number = (unsigned)-1;
        }
    }
    for (unsigned number = 0; number < pmtrace_.based_count; number++) {
        if (pmtrace_.based[number].from - range.from < range.length)
            range = pmtrace_piece_(range, pmtrace_.based[number].from - range.from);
    }
    return range;
}

static bool pmtrace_add_based_(pmtrace_range_ range) {
    size_t size = (pmtrace_.based_count + 1) * sizeof range;
    pmtrace_range_ *more = (pmtrace_range_ *)realloc(pmtrace_.based, size);
    if (more == NULL)
        return false;
    pmtrace_.based = more;
    more[pmtrace_.based_count++] = range;
    return true;
}

/* Keeps what stands in a mapping and is in no base yet, where bases are wanted and the window is open. */
static void pmtrace_keep_base_(unsigned pool, pmtrace_range_ range) {
    while (pmtrace_.basing && pmtrace_.window && !pmtrace_.ended) {
        pmtrace_range_ part = pmtrace_next_unbased_(range);
        if (part.length == 0)
            return;
        if (!pmtrace_write_base_(pool, part))
            pmtrace_lose_bases_(pool, strerror(errno));
        else if (!pmtrace_add_based_(part))
            pmtrace_lose_bases_(pool, "out of memory");
        range = pmtrace_rest_(range, part.from + part.length - range.from);
    }
}

/* Keeps what stands in all mappings, since the window opens. While the trace has no store, what was made safe outside the window
 * stood there from the first: the bases are made anew. */
static void pmtrace_keep_bases_(void) {
    if (pmtrace_.basing && !pmtrace_.stored)
        pmtrace_remove_bases_();
    for (unsigned number = 0; number < pmtrace_.mapping_count; number++)
        pmtrace_keep_base_(pmtrace_.mappings[number].pool, pmtrace_.mappings[number].range);
}

/* --- what calls note, in the window and outside --- */

static uint64_t pmtrace_line_of_(uint64_t from) {
    return from - from % pmtrace_.line_size;
}

static void pmtrace_note_word_(uint64_t from, const unsigned char *bytes, size_t length) {
    pmtrace_age_store_(from, length);
    if (pmtrace_.window) {
        pmtrace_put_store_(from, bytes, length);
    } else {
        pmtrace_.seen++;
        pmtrace_follow_store_(pmtrace_line_of_(from));
    }
}

static uint64_t pmtrace_words_of_(pmtrace_range_ piece) {
    return (piece.from + piece.length - 1) / PMTRACE_WORD_BYTES_ - piece.from / PMTRACE_WORD_BYTES_ + 1;
}

/* Whether the trace has room for so many events. Where it has not, it ends before them. */
static bool pmtrace_has_events_(const char *what, uint64_t bytes, uint64_t events) {
    uint64_t left = pmtrace_.most_events - pmtrace_.events;
    char why[PMTRACE_MOST_LABEL_ + 300];
    if (pmtrace_.ended || left == 0 || events <= left)
        return !pmtrace_.ended;
    snprintf(why, sizeof why,
             "%s%s%s of %llu bytes takes %llu events, and there is room for %llu; pmtrace_stop or PMTRACE_START leaves it out",
             pmtrace_.label != NULL ? pmtrace_.label : "", pmtrace_.label != NULL ? ": " : "", what, (unsigned long long)bytes,
             (unsigned long long)events, (unsigned long long)left);
    pmtrace_end_(why);
    return false;
}

/* Notes what stands in a piece as stores to its words. */
static void pmtrace_note_stores_(pmtrace_range_ piece) {
    const pmtrace_pool_ *pool = NULL;
    if (piece.length > 0 && pmtrace_.window && !pmtrace_has_events_("a store", piece.length, pmtrace_words_of_(piece))) {
        pmtrace_.missing += pmtrace_words_of_(piece);
        return;
    }
    if (pmtrace_.watching)
        pool = &pmtrace_.pools[pmtrace_mapping_at_(piece.at)->pool];
    while (piece.length > 0) {
        pmtrace_range_ word = pmtrace_in_word_(piece);
        size_t into_word = (size_t)(word.from % PMTRACE_WORD_BYTES_);
        uint64_t now = pmtrace_load_(word.at - into_word);
        const unsigned char *bytes = (const unsigned char *)&now + into_word;
        if (pool != NULL && pool->copy != NULL)
            memcpy(pmtrace_copied_(pool, word.from), bytes, (size_t)word.length);
        pmtrace_note_word_(word.from, bytes, (size_t)word.length);
        piece = pmtrace_rest_(piece, word.length);
    }
}

static void pmtrace_note_flushes_(pmtrace_flush_kind kind, pmtrace_range_ piece) {
    if (pmtrace_.ended || !pmtrace_has_number_())
        kind = PMTRACE_CLFLUSH; /* which opens nothing */
    if (kind != PMTRACE_CLFLUSH)
        pmtrace_.threads[pmtrace_number_].flush_open = true;
    for (uint64_t line = pmtrace_line_of_(piece.from); line < piece.from + piece.length; line += pmtrace_.line_size) {
        if (pmtrace_.window) {
            pmtrace_put_flush_(kind, line, pmtrace_number_);
        } else {
            pmtrace_.seen++;
            pmtrace_follow_flush_(kind, line);
        }
    }
}

static void pmtrace_note_fence_(pmtrace_fence_kind kind) {
    if (!pmtrace_.ended && pmtrace_has_number_()) {
        pmtrace_.threads[pmtrace_number_].flush_open = false;
        pmtrace_.threads[pmtrace_number_].fences++;
    }
    if (pmtrace_.window)
        pmtrace_put_fence_(kind);
    else
        pmtrace_.seen++;
}

static void pmtrace_note_assertion_(const char *word, pmtrace_range_ first, const pmtrace_range_ *second) {
    if (!pmtrace_.window) {
        pmtrace_.seen++;
        return;
    }
    if (second != NULL && pmtrace_is_older_(*second)) {
        pmtrace_.aside++;
        pmtrace_.seen++;
        return;
    }
    char *at = pmtrace_begin_(word);
    if (at == NULL)
        return;
    at = pmtrace_put_count_(pmtrace_put_address_(at, first.from), first.length);
    if (second != NULL)
        at = pmtrace_put_count_(pmtrace_put_address_(at, second->from), second->length);
    pmtrace_finish_(at);
}

/* --- opening and closing the window --- */

/* A line of the pools as far as a mapping has it: of length 0 where none does. */
static pmtrace_range_ pmtrace_mapped_line_(uint64_t address) {
    pmtrace_range_ line = {address, 0, 0};
    for (unsigned number = 0; line.length == 0 && number < pmtrace_.mapping_count; number++)
        line = pmtrace_part_(pmtrace_.mappings[number].range, address, address + pmtrace_.line_size);
    return line;
}

/* Puts so many lines of the table: first the stores of all, then what flushed each, so that no order between them is claimed. */
static void pmtrace_put_lines_(size_t count) {
    for (size_t at = 0; at < count; at++)
        pmtrace_note_stores_(pmtrace_mapped_line_(pmtrace_.lines[at].address));
    for (size_t at = 0; at < count; at++) {
        const pmtrace_line_ *line = &pmtrace_.lines[at];
        if (pmtrace_is_safe_(line))
            pmtrace_put_flush_(PMTRACE_CLFLUSH, line->address, pmtrace_number_);
        else if (line->flusher != 0)
            pmtrace_put_flush_(PMTRACE_CLWB, line->address, line->flusher - 1u);
    }
}

static void pmtrace_open_window_(void) {
    if (pmtrace_.window)
        return;
    pmtrace_look_();
    size_t count = pmtrace_gather_lines_();
    uint64_t bytes = (uint64_t)count * pmtrace_.line_size, seen = pmtrace_.seen;
    pmtrace_.window = true;
    pmtrace_.window_number++;
    pmtrace_keep_bases_();
    pmtrace_.aging = false; /* what is carried is as old as it is */
    if (pmtrace_has_events_("what was stored outside the window,", bytes, bytes / PMTRACE_WORD_BYTES_ + count))
        pmtrace_put_lines_(count);
    pmtrace_.aging = true;
    pmtrace_.seen = seen;
    pmtrace_forget_lines_();
}

static void pmtrace_close_window_(void) {
    pmtrace_look_();
    if (!pmtrace_.window)
        return;
    pmtrace_begin_aging_();
    pmtrace_.window_number++;
    pmtrace_.closed_at = pmtrace_.seen;
    pmtrace_.window = false;
}

/* The window opens or closes where the environment says so. */
static void pmtrace_turn_(void) {
    if (pmtrace_.seen >= pmtrace_.start_at) {
        pmtrace_.start_at = UINT64_MAX;
        pmtrace_open_window_();
    }
    if (pmtrace_.seen >= pmtrace_.stop_at) {
        pmtrace_.stop_at = UINT64_MAX;
        pmtrace_close_window_();
    }
}

/* --- pools come, grow and go --- */

/* Where a range is to be: its pool, or the number of pools where it is a new one, and its address. */
typedef struct pmtrace_place_ {
    unsigned pool;
    uint64_t from;
    const char *refusal; /* why it can't be recorded, or NULL */
} pmtrace_place_;

/* A mapping that has a byte of these, or NULL. */
static const pmtrace_mapping_ *pmtrace_overlapping_(uintptr_t at, size_t length) {
    const pmtrace_mapping_ *found = pmtrace_mapping_at_(at);
    size_t gap = pmtrace_gap_at_(at, length);
    return found != NULL || gap == length ? found : pmtrace_mapping_at_(at + gap);
}

static uint64_t pmtrace_first_free_(void) {
    uint64_t end = pmtrace_.pool_count == 0 ? 0 : pmtrace_.pools[pmtrace_.pool_count - 1].end;
    return (end + PMTRACE_APART_ - 1) / PMTRACE_APART_ * PMTRACE_APART_;
}

static pmtrace_place_ pmtrace_place_of_(uintptr_t at, size_t length, pmtrace_file_ file) {
    pmtrace_place_ place = {pmtrace_pool_of_file_(file), 0, NULL};
    const pmtrace_mapping_ *known = pmtrace_overlapping_(at, length);
    if (place.pool < pmtrace_.pool_count) {
        const pmtrace_pool_ *pool = &pmtrace_.pools[place.pool];
        if (file.offset < pool->file.offset)
            place.refusal = "it begins before the first byte of its pool";
        place.from = pool->from + (file.offset - pool->file.offset);
    } else if (known != NULL && !file.shared && !pmtrace_.pools[known->pool].file.shared) {
        place.pool = known->pool;
        if (at < known->range.at)
            place.refusal = "it begins before the first byte of its pool";
        place.from = known->range.from + (at - known->range.at);
    } else {
        place.from = pmtrace_first_free_() + at % pmtrace_.line_size;
    }
    if (place.refusal == NULL && (uint64_t)length > pmtrace_end_of_room_(place.pool) - place.from)
        place.refusal = "the pool is longer than the addresses that are left";
    return place;
}

#ifndef O_PATH
#define O_PATH 010000000
#endif

enum { PMTRACE_FIRST_KEPT_ = 500 }; /* a descriptor's number that is out of the program's way */

/* The path of the file that is mapped there; false where there is none. */
static bool pmtrace_path_at_(uintptr_t address, char path[PMTRACE_BASE_PATH_]) {
    char line[PMTRACE_BASE_PATH_ + 200];
    unsigned long start, end;
    bool found = false;
    FILE *maps = fopen("/proc/self/maps", "re");
    while (maps != NULL && !found && fgets(line, sizeof line, maps) != NULL)
        found = sscanf(line, "%lx-%lx", &start, &end) == 2 && start <= address && address < end;
    if (maps != NULL)
        fclose(maps);
    char *first = found ? strchr(line, '/') : NULL, *last = found ? strchr(line, '\n') : NULL;
    if (first == NULL || last == NULL || last - first >= PMTRACE_BASE_PATH_)
        return false;
    memcpy(path, first, (size_t)(last - first));
    path[last - first] = '\0';
    return true;
}

/* A descriptor by a file's path alone, or -1. It keeps none of the program's locks: a mapping would keep those of flock, and the end of an
 * ordinary descriptor would give up those of fcntl. */
static int pmtrace_keep_path_(uintptr_t at, pmtrace_file_ file) {
    char path[PMTRACE_BASE_PATH_];
    struct stat status;
    int found = pmtrace_path_at_(at, path) ? open(path, O_PATH | O_CLOEXEC) : -1;
    bool same = found >= 0 && fstat(found, &status) == 0 && status.st_ino == file.number;
    int kept = same ? fcntl(found, F_DUPFD_CLOEXEC, PMTRACE_FIRST_KEPT_) : -1;
    if (found >= 0 && !(same && kept < 0))
        close(found);
    return same && kept < 0 ? found : kept;
}

/* Keeps a pool's file: while it is kept no other file gets the number by which this one is known. Where its path leads to it no more a
 * page of it is mapped once more, not to be read. */
static void pmtrace_keep_file_(pmtrace_pool_ *pool, uintptr_t at) {
    const uintptr_t page = (uintptr_t)sysconf(_SC_PAGESIZE);
    const long may_move = 1; /* MREMAP_MAYMOVE: of a shared mapping with the length 0 it makes another one */
    if (!pool->file.shared)
        return;
    pool->kept_file = pmtrace_keep_path_(at, pool->file);
    if (pool->kept_file >= 0)
        return;
    void *kept = (void *)(uintptr_t)syscall(SYS_mremap, at - at % page, 0L, page, may_move, 0L);
    if (kept == MAP_FAILED)
        return;
    (void)mprotect(kept, page, PROT_NONE);
    pool->kept = kept;
}

/* The program may have closed all descriptors, and opened others by their numbers. */
static void pmtrace_unkeep_file_(const pmtrace_pool_ *pool) {
    struct stat status;
    bool same = pool->kept_file >= 0 && (fcntl(pool->kept_file, F_GETFL) & O_PATH) != 0 && fstat(pool->kept_file, &status) == 0 &&
                status.st_ino == pool->file.number;
    if (same)
        close(pool->kept_file);
    if (pool->kept != NULL)
        munmap(pool->kept, (size_t)sysconf(_SC_PAGESIZE));
}

static bool pmtrace_add_pool_(uintptr_t at, uint64_t from, pmtrace_file_ file) {
    pmtrace_pool_ pool = {from, from, file, NULL, NULL, -1};
    pmtrace_pool_ *more = (pmtrace_pool_ *)realloc(pmtrace_.pools, (pmtrace_.pool_count + 1) * sizeof pool);
    if (more == NULL)
        return false;
    pmtrace_keep_file_(&pool, at);
    pmtrace_.pools = more;
    more[pmtrace_.pool_count++] = pool;
    return true;
}

/* Makes one of two mappings that continue one another in memory and in the pool, so that a line or a word of both is one. */
static void pmtrace_join_mappings_(void) {
    for (unsigned first = 0; first < pmtrace_.mapping_count; first++) {
        for (unsigned second = 0; second < pmtrace_.mapping_count; second++) {
            pmtrace_mapping_ *one = &pmtrace_.mappings[first];
            const pmtrace_mapping_ *other = &pmtrace_.mappings[second];
            if (one->pool == other->pool && one->shared == other->shared && one->tracked == other->tracked &&
                one->range.from + one->range.length == other->range.from &&
                one->range.at + (uintptr_t)one->range.length == other->range.at) {
                one->range.length += other->range.length;
                pmtrace_remove_mapping_(second);
                first = second = (unsigned)-1;
                break;
            }
        }
    }
}

static bool pmtrace_insert_mapping_(pmtrace_mapping_ mapping) {
    pmtrace_mapping_ *more = (pmtrace_mapping_ *)realloc(pmtrace_.mappings, (pmtrace_.mapping_count + 1) * sizeof mapping);
    if (more == NULL)
        return false;
    pmtrace_.mappings = more;
    more[pmtrace_.mapping_count++] = mapping;
    return true;
}

/* Adds a mapping that overlaps none. */
static bool pmtrace_add_mapping_(unsigned pool_number, pmtrace_range_ range, bool shared) {
    pmtrace_mapping_ mapping = {range, pool_number, shared, false};
    pmtrace_pool_ *pool = &pmtrace_.pools[pool_number];
    if (pool->end < range.from + range.length)
        pool->end = range.from + range.length;
    if (pmtrace_.watching && !pmtrace_make_copy_(pool))
        return false;
    if (pmtrace_.watching)
        pmtrace_begin_to_watch_(&mapping);
    pmtrace_keep_base_(pool_number, range);
    return pmtrace_insert_mapping_(mapping);
}

/* Takes the bytes off the mappings that have them. */
static void pmtrace_unmap_(uintptr_t at, size_t length) {
    unsigned number = 0;
    while (number < pmtrace_.mapping_count) {
        pmtrace_mapping_ mapping = pmtrace_.mappings[number];
        uintptr_t first = mapping.range.at, end = first + (uintptr_t)mapping.range.length;
        if (at >= end || at + length <= first) {
            number++;
            continue;
        }
        pmtrace_remove_mapping_(number);
        pmtrace_mapping_ before = mapping, after = mapping;
        before.range = pmtrace_piece_(mapping.range, at > first ? at - first : 0);
        after.range = pmtrace_rest_(mapping.range, at + length < end ? at + length - first : mapping.range.length);
        /* one of the two takes the free place; for the other room is left by what was taken off, or asked for */
        if (before.range.length > 0)
            pmtrace_.mappings[pmtrace_.mapping_count++] = before;
        if (after.range.length > 0 && before.range.length == 0)
            pmtrace_.mappings[pmtrace_.mapping_count++] = after;
        else if (after.range.length > 0 && !pmtrace_insert_mapping_(after))
            pmtrace_miss_("there is no memory for another mapping; a part of a pool is not recorded");
    }
}

/* Takes off what stands in the way of a new mapping: the program unmapped it and did not tell. */
static void pmtrace_unmap_stale_(pmtrace_place_ place, uintptr_t at, size_t length) {
    for (unsigned number = 0; number < pmtrace_.mapping_count; number++) {
        const pmtrace_mapping_ *mapping = &pmtrace_.mappings[number];
        uintptr_t first = mapping->range.at, end = first + (uintptr_t)mapping->range.length;
        bool same = mapping->pool == place.pool && mapping->range.from - first == place.from - at;
        if (at < end && first < at + length && !same) {
            if (pmtrace_.watching)
                pmtrace_miss_(
                    "a watched pool was unmapped without pmtrace_forget; plain stores since the last look are not in the trace");
            uintptr_t from = at > first ? at : first;
            pmtrace_unmap_(from, (at + length < end ? at + length : end) - from);
            number = (unsigned)-1;
        }
    }
}

/* Adds what of the range is in no mapping yet. */
static bool pmtrace_map_(pmtrace_place_ place, uintptr_t at, size_t length, bool shared) {
    pmtrace_range_ left = {place.from, length, at};
    while (left.length > 0) {
        const pmtrace_mapping_ *known = pmtrace_mapping_at_(left.at);
        uint64_t more = known != NULL ? known->range.at + known->range.length - left.at : pmtrace_gap_at_(left.at, left.length);
        pmtrace_range_ piece = pmtrace_piece_(left, more);
        if (known == NULL && !pmtrace_add_mapping_(place.pool, piece, shared))
            return false;
        left = pmtrace_rest_(left, piece.length);
    }
    pmtrace_join_mappings_();
    return true;
}

/* Records the range from here on. Answers why it can't, or NULL. */
static const char *pmtrace_begin_pool_(const void *base, size_t length) {
    uintptr_t at = (uintptr_t)base;
    if (base == NULL || length == 0 || length > UINTPTR_MAX - at)
        return "there is no such pool";
    pmtrace_file_ file = pmtrace_file_at_(at);
    pmtrace_place_ place = pmtrace_place_of_(at, length, file);
    if (place.refusal != NULL)
        return place.refusal;
    pmtrace_unmap_stale_(place, at, length);
    if (place.pool == pmtrace_.pool_count && !pmtrace_add_pool_(at, place.from, file))
        return "out of memory";
    return pmtrace_map_(place, at, length, file.shared) ? NULL : "out of memory";
}

/* Where an address that is in no mapping belongs to a file that is a pool, its mapping is added, as far as the pool is known. */
static bool pmtrace_add_alias_(uintptr_t address, size_t length) {
    pmtrace_file_ file = pmtrace_file_at_(address);
    unsigned number = pmtrace_pool_of_file_(file);
    if (number == pmtrace_.pool_count || file.offset < pmtrace_.pools[number].file.offset)
        return false;
    const pmtrace_pool_ *pool = &pmtrace_.pools[number];
    pmtrace_place_ place = {number, pool->from + (file.offset - pool->file.offset), NULL};
    if (place.from >= pool->end)
        return false;
    uintptr_t first = file.start, end = file.end;
    uint64_t before = place.from - pool->from, after = pool->end - place.from;
    if (address - first > before)
        first = address - (uintptr_t)before;
    if (end - address > after)
        end = address + (uintptr_t)after;
    (void)length;
    place.from -= address - first;
    return pmtrace_map_(place, first, end - first, true);
}

/* --- the beginning and the end of a call --- */

static const struct timespec pmtrace_moment_ = {0, 1000000};

static bool pmtrace_owns_(void) {
    return __atomic_load_n(&pmtrace_owner_, __ATOMIC_RELAXED) == (uintptr_t)pthread_self();
}

/* A call will not give the lock back: the trace ends there, and no later call takes the lock. */
static void pmtrace_break_(const char *why) {
    if (__atomic_exchange_n(&pmtrace_broken_, 1, __ATOMIC_SEQ_CST) == 0 && pmtrace_get_state_() == PMTRACE_OPEN_)
        pmtrace_end_(why);
}

/* Waits for the lock while the calls of other threads go on. */
static bool pmtrace_wait_(void) {
    uint64_t calls = __atomic_load_n(&pmtrace_.calls, __ATOMIC_RELAXED);
    for (int waited = 0; waited < PMTRACE_SECONDS_ && !pmtrace_is_(&pmtrace_broken_); waited++) {
        struct timespec until;
        clock_gettime(CLOCK_REALTIME, &until);
        until.tv_sec++;
        if (pthread_mutex_timedlock(&pmtrace_lock_, &until) == 0)
            return true;
        if (__atomic_load_n(&pmtrace_.calls, __ATOMIC_RELAXED) != calls) {
            calls = __atomic_load_n(&pmtrace_.calls, __ATOMIC_RELAXED);
            waited = -1;
        }
    }
    pmtrace_break_("a call of another thread did not return for ten seconds");
    return false;
}

/* The thread can't be cancelled in between. A cancellation at any moment may be on its way, which its type alone keeps off. */
static void pmtrace_keep_(int *cancel, int *type) {
    pthread_setcancelstate(PTHREAD_CANCEL_DISABLE, cancel);
    pthread_setcanceltype(PTHREAD_CANCEL_DEFERRED, type);
}

static void pmtrace_release_(int cancel, int type) {
    if (type != PTHREAD_CANCEL_DEFERRED)
        pthread_setcanceltype(type, NULL);
    if (cancel != PTHREAD_CANCEL_DISABLE)
        pthread_setcancelstate(cancel, NULL);
}

/* Takes the lock. The thread can't be cancelled until it gives it back. False where a call never gave it back. */
static bool pmtrace_take_(void) {
    int error = errno, cancel, type;
    if (pmtrace_owns_()) {
        pmtrace_break_("a call was left by a jump, or a signal handler came into it");
        return false;
    }
    pmtrace_keep_(&cancel, &type);
    __atomic_store_n(&pmtrace_inside_, 1, __ATOMIC_RELAXED);
    if (pmtrace_is_(&pmtrace_broken_) || (pthread_mutex_trylock(&pmtrace_lock_) != 0 && !pmtrace_wait_())) {
        __atomic_store_n(&pmtrace_inside_, 0, __ATOMIC_RELAXED);
        pmtrace_release_(cancel, type);
        errno = error;
        return false;
    }
    __atomic_store_n(&pmtrace_owner_, (uintptr_t)pthread_self(), __ATOMIC_RELAXED);
    __atomic_store_n(&pmtrace_.calls, pmtrace_.calls + 1, __ATOMIC_RELAXED);
    pmtrace_.error = error;
    pmtrace_.cancel = cancel;
    pmtrace_.cancel_type = type;
    return true;
}

static void pmtrace_give_(void) {
    int error = pmtrace_.error, cancel = pmtrace_.cancel, type = pmtrace_.cancel_type;
    __atomic_store_n(&pmtrace_owner_, (uintptr_t)0, __ATOMIC_RELAXED);
    pthread_mutex_unlock(&pmtrace_lock_);
    __atomic_store_n(&pmtrace_inside_, 0, __ATOMIC_RELAXED);
    pmtrace_release_(cancel, type);
    errno = error;
}

/* A call that nothing is noted of. What a child does to a pool that it shares with its parent is told, and counted for the
 * parent; so is a call that comes when the program has all but exited. */
static void pmtrace_pass_(int state, const volatile void *start, size_t length) {
    static int told;
    bool reaches = state == PMTRACE_OVER_;
    for (unsigned number = 0; state == PMTRACE_FORKED_ && number < pmtrace_.mapping_count; number++) {
        const pmtrace_mapping_ *mapping = &pmtrace_.mappings[number];
        uintptr_t from = mapping->range.at, first = (uintptr_t)start;
        reaches = reaches || (mapping->shared && first < from + mapping->range.length && from < first + length);
    }
    if (!reaches)
        return;
    if (state == PMTRACE_FORKED_ && pmtrace_children_ != NULL)
        __atomic_fetch_add(pmtrace_children_, 1, __ATOMIC_SEQ_CST);
    if (__atomic_exchange_n(&told, 1, __ATOMIC_SEQ_CST) == 0)
        pmtrace_tell_(state == PMTRACE_FORKED_ ? "%s: what this child of fork does to the pool is not in the trace"
                                               : "%s: what comes after the end of the program is not in the trace",
                      pmtrace_.name);
}

/* While a signal ends the program its threads wait, so that none stores past the lock. Another handler than ours may prevent it. */
static void pmtrace_wait_for_death_(void) {
    for (int waited = 0; waited < 2000 * PMTRACE_SECONDS_ && !pmtrace_is_(&pmtrace_broken_); waited++)
        nanosleep(&pmtrace_moment_, NULL);
    pmtrace_break_("a signal was to end the program, and did not");
}

/* Takes the lock, if a trace is open. The call is about these bytes. */
static bool pmtrace_enter_(const char *label, const volatile void *start, size_t length) {
    int state = pmtrace_get_state_();
    if (state != PMTRACE_OPEN_) {
        if (state != PMTRACE_CLOSED_)
            pmtrace_pass_(state, start, length);
        return false;
    }
    if (pmtrace_is_(&pmtrace_dying_))
        pmtrace_wait_for_death_();
    if (!pmtrace_take_()) {
        __atomic_fetch_add(&pmtrace_lost_, 1, __ATOMIC_RELAXED);
        return false;
    }
    if (pmtrace_get_state_() != PMTRACE_OPEN_) {
        pmtrace_give_();
        return false;
    }
    pmtrace_.label = label;
    if (pmtrace_.seen >= pmtrace_.start_at || pmtrace_.seen >= pmtrace_.stop_at)
        pmtrace_turn_();
    return true;
}

/* Gives the lock back. What the call noted is in the files. */
static void pmtrace_leave_(void) {
    pmtrace_write_all_();
    pmtrace_give_();
}

/* The thread's number may be given again, but where a flush of it is open. */
static void pmtrace_on_thread_end_(void *none) {
    (void)none;
    if (pmtrace_number_of_ == 0 || !pmtrace_enter_(NULL, NULL, 0))
        return;
    if (pmtrace_number_of_ == pmtrace_.opened && !pmtrace_.threads[pmtrace_number_].flush_open)
        pmtrace_.threads[pmtrace_number_].given = false;
    pmtrace_number_of_ = 0;
    pmtrace_leave_();
}

/* --- the end of the program and of processes --- */

static int pmtrace_end_trace_(const char *label, int state);

static void pmtrace_at_exit_(void) {
    if (pmtrace_get_state_() == PMTRACE_OPEN_)
        (void)pmtrace_end_trace_(NULL, PMTRACE_OVER_);
}

/* The signal is handled as the system does. */
static void pmtrace_let_(int number) {
    struct sigaction action;
    memset(&action, 0, sizeof action);
    action.sa_handler = SIG_DFL;
    sigemptyset(&action.sa_mask);
    sigaction(number, &action, NULL);
}

/* Waits, for five seconds at most, until no other thread is in a call. A lock that stays taken by nobody was just taken, or is about to
 * be given back, by this thread, into which the signal came. */
static bool pmtrace_wait_for_calls_(void) {
    int by_nobody = 0;
    for (int waited = 0; waited < 5000; waited++) {
        if (pmtrace_owns_() || pmtrace_is_(&pmtrace_broken_))
            return true;
        if (pthread_mutex_trylock(&pmtrace_lock_) == 0) {
            /* for a second signal that comes into this one */
            __atomic_store_n(&pmtrace_owner_, (uintptr_t)pthread_self(), __ATOMIC_RELAXED);
            return true;
        }
        bool nobody = __atomic_load_n(&pmtrace_owner_, __ATOMIC_RELAXED) == 0;
        by_nobody = nobody && __atomic_load_n(&pmtrace_inside_, __ATOMIC_RELAXED) ? by_nobody + 1 : 0;
        if (by_nobody == 200)
            return true;
        nanosleep(&pmtrace_moment_, NULL);
    }
    return false;
}

/* A signal that ends the program: lets no call begin, and cuts the files behind their last lines. Then the signal takes its usual way.
 * Another one meanwhile waits too. */
static void pmtrace_on_death_(int number) {
    __atomic_store_n(&pmtrace_dying_, 1, __ATOMIC_SEQ_CST);
    pmtrace_write_how_("signal ", (unsigned)number);
    if (pmtrace_get_state_() == PMTRACE_OPEN_ && pmtrace_wait_for_calls_()) {
        pmtrace_cut_(&pmtrace_.trace);
        if (pmtrace_.labeled)
            pmtrace_cut_(&pmtrace_.labels);
    }
    pmtrace_let_(number);
    raise(number);
}

/* Signals that would be handled in the one way are from here on in the other. */
static void pmtrace_turn_signals_(void (*one)(int), void (*other)(int)) {
    static const int deadly[] = {SIGHUP,  SIGINT,  SIGQUIT, SIGILL,  SIGTRAP, SIGABRT, SIGBUS,  SIGFPE, SIGUSR1,
                                 SIGSEGV, SIGUSR2, SIGPIPE, SIGALRM, SIGTERM, SIGXCPU, SIGXFSZ, SIGSYS};
    for (size_t at = 0; at < sizeof deadly / sizeof deadly[0]; at++) {
        struct sigaction action;
        if (sigaction(deadly[at], NULL, &action) == 0 && !(action.sa_flags & SA_SIGINFO) && action.sa_handler == one) {
            memset(&action, 0, sizeof action);
            action.sa_handler = other;
            sigemptyset(&action.sa_mask);
            sigaction(deadly[at], &action, NULL);
        }
    }
}

/* After the destructors of static objects; or where a library that has the recorder is unloaded. */
__attribute__((destructor(101))) static void pmtrace_at_unloading_(void) {
    pmtrace_at_exit_();
    if (pmtrace_.prepared) {
        pmtrace_turn_signals_(pmtrace_on_death_, SIG_DFL);
        pthread_key_delete(pmtrace_key_);
    }
}

static bool pmtrace_forking_; /* the lock is held over a fork */

static void pmtrace_before_fork_(void) {
    bool taken = pmtrace_take_();
    pmtrace_forking_ = taken;
}

static void pmtrace_in_parent_(void) {
    if (pmtrace_forking_)
        pmtrace_give_();
}

/* The trace is the parent's. Of it the child keeps its name, its mappings and the count of what is missing. */
static void pmtrace_in_child_(void) {
    if (__atomic_load_n(&pmtrace_state_, __ATOMIC_SEQ_CST) == PMTRACE_OPEN_) {
        pmtrace_drop_file_(&pmtrace_.trace);
        if (pmtrace_.labeled)
            pmtrace_drop_file_(&pmtrace_.labels);
        pmtrace_stop_tracking_();
        pmtrace_forget_lines_();
        pmtrace_forget_ages_();
        pmtrace_free_pools_();
        __atomic_store_n(&pmtrace_state_, PMTRACE_FORKED_, __ATOMIC_SEQ_CST);
    }
    if (pmtrace_forking_)
        pmtrace_give_();
}

/* A child that was made by other means than fork, and wants a trace of its own: whoever had the lock is not here. */
static void pmtrace_come_to_(void) {
    pthread_mutex_init(&pmtrace_lock_, NULL);
    __atomic_store_n(&pmtrace_owner_, (uintptr_t)0, __ATOMIC_SEQ_CST);
    pmtrace_forking_ = false;
    pmtrace_in_child_();
}

/* What happens once, and what happens for each trace. */
static void pmtrace_prepare_(void) {
    if (!pmtrace_.prepared) {
        at_quick_exit(pmtrace_at_exit_);
        pthread_atfork(pmtrace_before_fork_, pmtrace_in_parent_, pmtrace_in_child_);
        pthread_key_create(&pmtrace_key_, pmtrace_on_thread_end_);
    }
    pmtrace_.prepared = true;
    /* those that the program handles or ignores stay as they are */
    pmtrace_turn_signals_(SIG_DFL, pmtrace_on_death_);
}

/* --- opening and closing --- */

/* A number that the environment names, or this one. What is no number is refused. */
static bool pmtrace_read_number_(const char *name, uint64_t *number) {
    const char *text = getenv(name);
    char *end;
    if (text == NULL || *text == '\0')
        return true;
    errno = 0;
    unsigned long long read = strtoull(text, &end, 10);
    if (errno != 0 || *end != '\0' || *text < '0' || *text > '9') {
        pmtrace_tell_("%s=%s is no number of events; nothing is recorded", name, text);
        return false;
    }
    *number = read;
    return true;
}

/* Writes the header of a new trace. */
static bool pmtrace_write_header_(unsigned line_size) {
    pmtrace_output_ *trace = &pmtrace_.trace;
    bool done = pmtrace_has_room_(trace, PMTRACE_LONGEST_LINE_);
    if (done) {
        pmtrace_put_end_(trace, pmtrace_put_number_(pmtrace_put_text_(trace->room, "pmtrace 2 "), line_size));
        done = trace->mapped || pmtrace_write_(trace);
    }
    if (!done)
        pmtrace_tell_("%s: %s; nothing is recorded", pmtrace_.name, strerror(errno));
    return done;
}

/* Whether the environment asks for something by this name. */
static bool pmtrace_is_wanted_(const char *name) {
    const char *wanted = getenv(name);
    return wanted != NULL && *wanted != '\0' && strcmp(wanted, "0") != 0;
}

/* Makes the trace with its header and, where there are labels, their file. The environment's PMTRACE_WHOLE lets the trace have more events
 * than pmtrim reads at once. */
static bool pmtrace_make_files_(unsigned line_size, bool labeled) {
    bool whole = pmtrace_is_wanted_("PMTRACE_WHOLE");
    const size_t most_text = whole ? (size_t)1 << 34 : 1 << 26;
    const size_t most_labels = whole ? (size_t)1 << 35 : (size_t)PMTRACE_MOST_EVENTS_ * (PMTRACE_MOST_LABEL_ + 16);
    pmtrace_.most_events = whole ? UINT64_MAX : (uint64_t)PMTRACE_MOST_EVENTS_;
    if (!pmtrace_make_(&pmtrace_.trace, pmtrace_.name, "", most_text))
        return false;
    if (pmtrace_write_header_(line_size) && (!labeled || pmtrace_make_(&pmtrace_.labels, pmtrace_.name, ".labels", most_labels)))
        return true;
    pmtrace_finish_file_(&pmtrace_.trace);
    return false;
}

/* Forgets the trace that was open last, but for its name where later calls are to be told of. */
static void pmtrace_reset_(void) {
    pmtrace_free_pools_();
    free(pmtrace_.mappings);
    free(pmtrace_.based);
    pmtrace_forget_lines_();
    pmtrace_forget_ages_();
    pmtrace_.aging = false;
    pmtrace_.mappings = NULL;
    pmtrace_.based = NULL;
    pmtrace_.based_count = 0;
    pmtrace_.mapping_count = pmtrace_.last_mapping = 0;
    pmtrace_.watching = false;
}

/* A page that children share, to count there what they do, and one by which they know that they are children. */
static void pmtrace_set_up_processes_(void) {
    const int wipe_on_fork = 18; /* MADV_WIPEONFORK, since Linux 4.14 */
    if (pmtrace_children_ == NULL || pmtrace_get_state_() == PMTRACE_FORKED_) {
        void *shared = mmap(NULL, sizeof *pmtrace_children_, PROT_READ | PROT_WRITE, MAP_SHARED | MAP_ANONYMOUS, -1, 0);
        pmtrace_children_ = shared != MAP_FAILED ? (uint64_t *)shared : NULL;
    }
    if (pmtrace_children_ != NULL)
        __atomic_store_n(pmtrace_children_, 0, __ATOMIC_SEQ_CST);
    if (pmtrace_here_ == NULL) {
        void *own = mmap(NULL, sizeof *pmtrace_here_, PROT_READ | PROT_WRITE, MAP_PRIVATE | MAP_ANONYMOUS, -1, 0);
        pmtrace_here_ = own != MAP_FAILED ? (int *)own : NULL;
        if (own != MAP_FAILED)
            (void)madvise(own, sizeof *pmtrace_here_, wipe_on_fork);
    }
    if (pmtrace_here_ != NULL)
        __atomic_store_n(pmtrace_here_, 1, __ATOMIC_SEQ_CST);
}

/* What a new trace begins with. */
static void pmtrace_set_up_(unsigned line_size, bool labeled) {
    const char *watch = getenv("PMTRACE_WATCH");
    pmtrace_reset_();
    pmtrace_.line_size = line_size;
    pmtrace_.labeled = labeled;
    pmtrace_.look_at_all = watch != NULL && strcmp(watch, "all") == 0;
    pmtrace_.ended = pmtrace_.incomplete = pmtrace_.stored = false;
    pmtrace_.opened++;
    pmtrace_.events = pmtrace_.seen = pmtrace_.missing = pmtrace_.outside = pmtrace_.aside = 0;
    pmtrace_.window_number = 1;
    pmtrace_.fault_file = pmtrace_.pages_file = -1;
    memset(pmtrace_.threads, 0, sizeof pmtrace_.threads);
    __atomic_store_n(&pmtrace_lost_, 0, __ATOMIC_RELAXED);
    pmtrace_set_up_processes_();
    pmtrace_prepare_();
}

/* The environment's PMTRACE_BASE asks for bases. Those of an earlier trace of this name go in any case. */
static void pmtrace_set_up_bases_(void) {
    pmtrace_remove_bases_();
    pmtrace_.basing = pmtrace_is_wanted_("PMTRACE_BASE");
}

/* Begins a trace without pools. */
static bool pmtrace_begin_trace_(const char *label, const char *file, unsigned line_size) {
    uint64_t start = 0, stop = UINT64_MAX;
    if (line_size != 32 && line_size != 64 && line_size != 128 && line_size != 256) {
        pmtrace_tell_("%s: a line has 32, 64, 128 or 256 bytes; nothing is recorded", file);
        return false;
    }
    if (!pmtrace_read_number_("PMTRACE_START", &start) || !pmtrace_read_number_("PMTRACE_STOP", &stop))
        return false;
    free(pmtrace_.name);
    free(pmtrace_.asked);
    pmtrace_.name = pmtrace_trace_path_(file);
    pmtrace_.asked = strdup(file);
    if (pmtrace_.name == NULL || pmtrace_.asked == NULL || !pmtrace_begin_cut_() || !pmtrace_make_files_(line_size, label != NULL))
        return false;
    pmtrace_set_up_(line_size, label != NULL);
    pmtrace_set_up_bases_();
    pmtrace_.window = start == 0;
    if (!pmtrace_.window)
        pmtrace_begin_aging_();
    pmtrace_.start_at = start == 0 ? UINT64_MAX : start;
    pmtrace_.stop_at = stop;
    return true;
}

static void pmtrace_close_files_(void) {
    if (!pmtrace_finish_file_(&pmtrace_.trace))
        pmtrace_end_(strerror(errno));
    if (pmtrace_.labeled && !pmtrace_finish_file_(&pmtrace_.labels))
        pmtrace_tell_("%s.labels: %s", pmtrace_.name, strerror(errno));
}

/* Adds a pool to the trace that is open. */
static int pmtrace_open_more_(const char *file, const void *base, size_t length, unsigned line_size) {
    const char *refusal = NULL;
    if (file != NULL && strcmp(file, pmtrace_.asked) != 0) {
        pmtrace_tell_("%s: another trace is open: %s; nothing is recorded here", file, pmtrace_.asked);
        return -1;
    }
    if (line_size != pmtrace_.line_size)
        refusal = "the trace has lines of another size";
    if (refusal == NULL)
        refusal = pmtrace_begin_pool_(base, length);
    if (refusal != NULL) {
        pmtrace_tell_("%s: %s; the %zu bytes at %p are not recorded", pmtrace_.name, refusal, length, base);
        pmtrace_.incomplete = true;
    }
    return refusal == NULL ? 0 : -1;
}

static int pmtrace_open_first_(const char *label, const char *file, const void *base, size_t length, unsigned line_size) {
    int state = pmtrace_get_state_();
    if (state == PMTRACE_FORKED_)
        pmtrace_pass_(state, base, length);
    if (file == NULL || base == NULL || length == 0 || length > UINTPTR_MAX - (uintptr_t)base) {
        pmtrace_tell_("%s: %s; nothing is recorded", file != NULL ? file : "pmtrace_open",
                      file != NULL ? "there is no such pool" : "no trace is open");
        return -1;
    }
    if (!pmtrace_begin_trace_(label, file, line_size))
        return -1;
    const char *refusal = pmtrace_begin_pool_(base, length);
    if (refusal != NULL) {
        pmtrace_tell_("%s: %s; nothing is recorded", file, refusal);
        pmtrace_close_files_();
        pmtrace_reset_();
        __atomic_store_n(&pmtrace_state_, PMTRACE_CLOSED_, __ATOMIC_RELEASE);
        return -1;
    }
    __atomic_store_n(&pmtrace_state_, PMTRACE_OPEN_, __ATOMIC_RELEASE);
    return 0;
}

int pmtrace_open_at(const char *label, const char *file, const void *base, size_t length, unsigned line_size) {
    if (pmtrace_get_state_() == PMTRACE_FORKED_ && __atomic_load_n(&pmtrace_state_, __ATOMIC_SEQ_CST) == PMTRACE_OPEN_)
        pmtrace_come_to_();
    if (!pmtrace_take_()) {
        pmtrace_tell_("%s: a call never returned; nothing is recorded", file != NULL ? file : "pmtrace_open");
        return -1;
    }
    pmtrace_.label = label;
    int answer = pmtrace_get_state_() == PMTRACE_OPEN_ ? pmtrace_open_more_(file, base, length, line_size)
                                                       : pmtrace_open_first_(label, file, base, length, line_size);
    pmtrace_give_();
    return answer;
}

int pmtrace_forget_at(const char *label, const void *start, size_t length) {
    uintptr_t at = (uintptr_t)start;
    if (!pmtrace_enter_(label, NULL, 0))
        return -1;
    bool known = length > 0 && length <= UINTPTR_MAX - at && pmtrace_overlapping_(at, length) != NULL;
    if (known) {
        pmtrace_look_last_();
        pmtrace_unmap_(at, length);
    }
    if (pmtrace_.mapping_count == 0) {
        pmtrace_trim_(&pmtrace_.trace);
        if (pmtrace_.labeled)
            pmtrace_trim_(&pmtrace_.labels);
    }
    pmtrace_leave_();
    return known ? 0 : -1;
}

bool pmtrace_records(const void *start, size_t length) {
    uintptr_t at = (uintptr_t)start;
    if (!pmtrace_enter_(NULL, NULL, 0))
        return false;
    bool all = length <= UINTPTR_MAX - at;
    size_t done = 0;
    while (all && done < length) {
        const pmtrace_mapping_ *mapping = pmtrace_mapping_at_(at + done);
        if (mapping != NULL)
            done += mapping->range.length - (at + done - mapping->range.at);
        else
            all = pmtrace_add_alias_(at + done, 1);
    }
    pmtrace_leave_();
    return all;
}

/* Tells what is not in the trace, and answers whether something is not. */
static bool pmtrace_tell_missing_(void) {
    uint64_t children = pmtrace_children_ != NULL ? __atomic_load_n(pmtrace_children_, __ATOMIC_SEQ_CST) : 0;
    uint64_t lost = __atomic_load_n(&pmtrace_lost_, __ATOMIC_RELAXED);
    if (pmtrace_.missing > 0)
        pmtrace_tell_("%s: %llu later events are not in the trace", pmtrace_.name, (unsigned long long)pmtrace_.missing);
    if (lost > 0)
        pmtrace_tell_("%s: %llu later calls are not in the trace", pmtrace_.name, (unsigned long long)lost);
    if (pmtrace_.outside > 0)
        pmtrace_tell_("%s: %llu calls reached outside the pool%s", pmtrace_.name, (unsigned long long)pmtrace_.outside,
                      pmtrace_.pool_count > 1 ? "s" : "");
    if (pmtrace_.aside > 0)
        pmtrace_tell_("%s: %llu claims of order about what was stored last before the window are not in the trace", pmtrace_.name,
                      (unsigned long long)pmtrace_.aside);
    if (children > 0)
        pmtrace_tell_("%s: %llu calls of children that fork made reached the pool and are not in the trace", pmtrace_.name,
                      (unsigned long long)children);
    return pmtrace_.ended || pmtrace_.incomplete || lost > 0 || pmtrace_.outside > 0 || pmtrace_.aside > 0 || children > 0;
}

/* A trace that ended as it should, and has no event, or not what came after its window: says so beside it. */
static void pmtrace_say_cut_(void) {
    if (pmtrace_.ended)
        return;
    if (pmtrace_.events == 0)
        pmtrace_write_cut_(pmtrace_.seen > 0 ? "no event came while the window was open" : "no event came");
    else if (!pmtrace_.window && pmtrace_.seen > pmtrace_.closed_at)
        pmtrace_write_cut_("the window was closed here, and events came after it");
}

/* The last line: where the trace is, and what to type next. PMTRACE_QUIET in the environment silences it; in a folder of traces, which
 * others read, there is none. */
static void pmtrace_tell_end_(void) {
    const char *name = pmtrace_.name;
    if (pmtrace_is_wanted_("PMTRACE_QUIET") || pmtrace_is_wanted_("PMTRACE_FOLDER"))
        return;
    pmtrace_tell_("%llu event%s in %s; next: pmtrim explain%s%s%s %s", (unsigned long long)pmtrace_.events, pmtrace_.events == 1 ? "" : "s",
                  name, pmtrace_.labeled ? " --labels " : "", pmtrace_.labeled ? name : "", pmtrace_.labeled ? ".labels" : "", name);
}

/* Ends the trace. Where a call never gave the lock back the first who comes does it without. */
static int pmtrace_end_trace_(const char *label, int state) {
    int open = PMTRACE_OPEN_;
    if (pmtrace_get_state_() != open)
        return -1;
    bool entered = pmtrace_enter_(label, NULL, 0);
    if (!entered && !pmtrace_is_(&pmtrace_broken_))
        return -1;
    if (entered) {
        pmtrace_look_last_();
        pmtrace_write_all_();
    } else {
        __atomic_fetch_sub(&pmtrace_lost_, 1, __ATOMIC_RELAXED); /* this call */
    }
    if (!__atomic_compare_exchange_n(&pmtrace_state_, &open, state, false, __ATOMIC_SEQ_CST, __ATOMIC_SEQ_CST)) {
        if (entered)
            pmtrace_give_();
        return -1;
    }
    pmtrace_close_files_();
    pmtrace_say_cut_();
    bool missing = pmtrace_tell_missing_();
    pmtrace_tell_end_();
    if (entered) {
        pmtrace_stop_tracking_();
        pmtrace_reset_();
        pmtrace_give_();
    }
    return missing ? -1 : 0;
}

int pmtrace_close_at(const char *label) {
    return pmtrace_end_trace_(label, PMTRACE_CLOSED_);
}

int pmtrace_watch_at(const char *label) {
    if (!pmtrace_enter_(label, NULL, 0))
        return -1;
    bool made = true;
    for (unsigned number = 0; made && !pmtrace_.watching && number < pmtrace_.pool_count; number++)
        made = pmtrace_make_copy_(&pmtrace_.pools[number]);
    for (unsigned number = 0; made && !pmtrace_.watching && number < pmtrace_.mapping_count; number++)
        pmtrace_begin_to_watch_(&pmtrace_.mappings[number]);
    if (made)
        pmtrace_.watching = true;
    else
        pmtrace_miss_("there is no memory for a copy of the pool; it is not watched");
    pmtrace_leave_();
    return made ? 0 : -1;
}

int pmtrace_start_at(const char *label) {
    if (!pmtrace_enter_(label, NULL, 0))
        return -1;
    pmtrace_open_window_();
    pmtrace_leave_();
    return 0;
}

int pmtrace_stop_at(const char *label) {
    if (!pmtrace_enter_(label, NULL, 0))
        return -1;
    pmtrace_close_window_();
    pmtrace_leave_();
    return 0;
}

/* --- stores --- */

/* Begins a store to a range: what was written to its lines before is noticed. */
static bool pmtrace_enter_store_(const char *label, const volatile void *to, size_t length) {
    pmtrace_range_ piece;
    if (!pmtrace_enter_(label, to, length))
        return false;
    pmtrace_walk_ walk = pmtrace_walk_over_(to, length);
    while (pmtrace_.watching && pmtrace_next_(&walk, &piece))
        pmtrace_notice_lines_(piece);
    return true;
}

/* Notes the store, which was done. With `flushed` its lines are flushed at once. */
static void pmtrace_leave_store_(const volatile void *to, size_t length, bool flushed) {
    pmtrace_range_ piece;
    pmtrace_walk_ walk = pmtrace_walk_over_(to, length);
    while (pmtrace_next_(&walk, &piece))
        pmtrace_note_stores_(piece);
    walk = pmtrace_walk_over_(to, length);
    walk.told = true;
    while (flushed && pmtrace_next_(&walk, &piece))
        pmtrace_note_flushes_(PMTRACE_CLFLUSHOPT, piece);
    pmtrace_leave_();
}

void *pmtrace_memmove_at(const char *label, void *to, const void *from, size_t length) {
    bool open = pmtrace_enter_store_(label, to, length);
    if (length > 0)
        memmove(to, from, length);
    if (open)
        pmtrace_leave_store_(to, length, false);
    return to;
}

void *pmtrace_memcpy_at(const char *label, void *to, const void *from, size_t length) {
    return pmtrace_memmove_at(label, to, from, length);
}

void pmtrace_store_at(const char *label, volatile void *place, const volatile void *value, size_t size) {
    bool open = pmtrace_enter_store_(label, place, size);
    pmtrace_do_store_(place, size, value);
    if (open)
        pmtrace_leave_store_(place, size, false);
}

void *pmtrace_memset_at(const char *label, void *to, int byte, size_t length) {
    bool open = pmtrace_enter_store_(label, to, length);
    if (length > 0)
        memset(to, byte, length);
    if (open)
        pmtrace_leave_store_(to, length, false);
    return to;
}

void *pmtrace_memcpy_nontemporal_at(const char *label, void *to, const void *from, size_t length) {
    bool open = pmtrace_enter_store_(label, to, length);
    if (length > 0)
        memmove(to, from, length);
    if (open)
        pmtrace_leave_store_(to, length, true);
    return to;
}

void *pmtrace_memset_nontemporal_at(const char *label, void *to, int byte, size_t length) {
    bool open = pmtrace_enter_store_(label, to, length);
    if (length > 0)
        memset(to, byte, length);
    if (open)
        pmtrace_leave_store_(to, length, true);
    return to;
}

void *pmtrace_exchange_at(const char *label, volatile void *place, size_t size, const volatile void *value,
                          volatile void *before) {
    uint64_t new_value[2] = {0, 0}, old_value[2] = {0, 0};
    pmtrace_get_(new_value, value, size);
    bool open = pmtrace_enter_store_(label, place, size);
    pmtrace_do_exchange_(place, size, new_value, old_value);
    if (open)
        pmtrace_leave_store_(place, size, false);
    pmtrace_set_(before, old_value, size);
    return (void *)(uintptr_t)before;
}

bool pmtrace_compare_exchange_at(const char *label, volatile void *place, size_t size, volatile void *expected,
                                 const volatile void *value) {
    uint64_t new_value[2] = {0, 0}, old_value[2] = {0, 0};
    pmtrace_get_(new_value, value, size);
    pmtrace_get_(old_value, expected, size);
    bool open = pmtrace_enter_store_(label, place, size);
    bool done = pmtrace_do_compare_exchange_(place, size, old_value, new_value);
    if (open)
        pmtrace_leave_store_(place, done ? size : 0, false);
    if (!done)
        pmtrace_set_(expected, old_value, size);
    return done;
}

void *pmtrace_fetch_at(const char *label, pmtrace_fetch_kind kind, volatile void *place, size_t size, const volatile void *value,
                       volatile void *before) {
    uint64_t operand = 0;
    pmtrace_get_(&operand, value, size);
    bool open = pmtrace_enter_store_(label, place, size);
    operand = pmtrace_do_fetch_(kind, place, size, operand);
    if (open)
        pmtrace_leave_store_(place, size, false);
    pmtrace_set_(before, &operand, size);
    return (void *)(uintptr_t)before;
}

/* --- flushes, fences, assertions --- */

/* A clflush is complete at once, so what was stored anywhere before it has to stand before it. */
static void pmtrace_flush_locked_(pmtrace_flush_kind kind, const void *start, size_t length) {
    pmtrace_range_ piece;
    pmtrace_walk_ walk = pmtrace_walk_over_(start, length);
    if (kind == PMTRACE_CLFLUSH)
        pmtrace_look_();
    while (pmtrace_next_(&walk, &piece)) {
        pmtrace_notice_lines_(piece);
        pmtrace_note_flushes_(kind, piece);
    }
}

static void pmtrace_fence_locked_(pmtrace_fence_kind kind) {
    pmtrace_look_();
    pmtrace_note_fence_(kind);
}

void pmtrace_flush_at(const char *label, pmtrace_flush_kind kind, const void *start, size_t length) {
    if (pmtrace_enter_(label, start, length)) {
        pmtrace_flush_locked_(kind, start, length);
        pmtrace_leave_();
    }
}

void pmtrace_fence_at(const char *label, pmtrace_fence_kind kind) {
    if (pmtrace_enter_(label, NULL, 0)) {
        pmtrace_fence_locked_(kind);
        pmtrace_leave_();
    }
}

void pmtrace_persist_at(const char *label, const void *start, size_t length) {
    if (pmtrace_enter_(label, start, length)) {
        pmtrace_flush_locked_(PMTRACE_CLWB, start, length);
        pmtrace_fence_locked_(PMTRACE_SFENCE);
        pmtrace_leave_();
    }
}

/* Notices what was stored to the lines of a range that a claim is about. */
static void pmtrace_notice_claimed_(const void *start, size_t length) {
    pmtrace_range_ piece;
    pmtrace_walk_ walk = pmtrace_walk_over_(start, length);
    while (pmtrace_next_(&walk, &piece))
        pmtrace_notice_lines_(piece);
}

/* The next piece of a range in an assertion: in one pool, and of at most so many bytes as an assertion has. */
static bool pmtrace_next_asserted_(pmtrace_walk_ *walk, pmtrace_range_ *piece) {
    walk->told = true;
    if (!pmtrace_next_(walk, piece))
        return false;
    if (piece->length > PMTRACE_MOST_ASSERTED_) {
        walk->at -= (uintptr_t)piece->length - PMTRACE_MOST_ASSERTED_;
        piece->length = PMTRACE_MOST_ASSERTED_;
    }
    return true;
}

void pmtrace_is_persist_at(const char *label, const void *start, size_t length) {
    pmtrace_range_ piece;
    if (!pmtrace_enter_(label, start, length))
        return;
    pmtrace_notice_claimed_(start, length);
    pmtrace_walk_ walk = pmtrace_walk_over_(start, length);
    while (pmtrace_next_asserted_(&walk, &piece))
        pmtrace_note_assertion_("isPersist", piece, NULL);
    pmtrace_leave_();
}

void pmtrace_is_ordered_before_at(const char *label, const void *first, size_t first_length, const void *second,
                                  size_t second_length) {
    pmtrace_range_ one, other;
    if (!pmtrace_enter_(label, first, first_length))
        return;
    pmtrace_notice_claimed_(first, first_length);
    pmtrace_notice_claimed_(second, second_length);
    pmtrace_walk_ firsts = pmtrace_walk_over_(first, first_length);
    while (pmtrace_next_asserted_(&firsts, &one)) {
        pmtrace_walk_ seconds = pmtrace_walk_over_(second, second_length);
        while (pmtrace_next_asserted_(&seconds, &other))
            pmtrace_note_assertion_("isOrderedBefore", one, &other);
    }
    pmtrace_leave_();
}

#endif /* PMTRACE_IMPLEMENTATION */
