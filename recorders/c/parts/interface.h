/* pmtrace.h: records what a program does to persistent memory, as a trace for pmtrim.
 *
 * One header for C11 and C++17, by gcc or clang, on Linux, with pthread and nothing else. Include it where you need it. In one C or
 * C++ file of the program define PMTRACE_IMPLEMENTATION before the include; where that file is compiled with -std=c11 rather than
 * -std=gnu11, let the include be its first. It is made from recorders/c/parts, where it is easier to read and to be mended.
 *
 *     pmtrace_open("run.trace", pool, pool_length, 64);
 *     pmtrace_memcpy(node, &filled, sizeof filled);        the copy, and its stores in the trace
 *     pmtrace_persist(node, sizeof *node);                 clwb of its lines, and sfence
 *     pmtrace_store(root->head, offset_of(node));          root->head = offset_of(node)
 *     pmtrace_persist(&root->head, sizeof root->head);
 *     pmtrace_is_ordered_before(node, sizeof *node, &root->head, sizeof root->head);
 *     pmtrace_close();
 *
 * - A store is done and noted under one lock, so the order in the trace is the order in which memory saw the recorded stores.
 * - A flush or a fence is only noted: keep your own instructions beside the calls. Where other threads store meanwhile, let a
 *   flush follow its call, and a fence come before it, so that the trace promises no more than the machine did.
 * - What lies outside the pools is done, reported once on standard error, and left out.
 * - Each call has put its events in the file before it returns, so nothing is lost when the program exits, aborts or is killed.
 * - The trace is always a true beginning of what happened. It ends early where it is full (1,000,000 events), where 257 threads
 *   have a number at one time, where a call never returned, or where the file can't be written. The program goes on; standard
 *   error, pmtrace_close and the file FILE.cut beside the trace tell of it.
 * - Calls before pmtrace_open and after pmtrace_close do the store alone. So do those of a child made by fork.
 * - Not to be called from a signal handler.
 *
 * Macros, to be defined before the include:
 *   PMTRACE_LABELS   where pmtrace_open is called, and in each file whose source lines are wanted: FILE.labels, beside the trace,
 *                    has a line `EVENT FILE:LINE FUNCTION` for each event, by its number and where its call stands
 *   PMTRACE_OFF      nothing is recorded and nothing is linked; stores and copies are done as by hand
 */
#ifndef PMTRACE_H
#define PMTRACE_H

#if defined PMTRACE_IMPLEMENTATION && !defined _DEFAULT_SOURCE
#define _DEFAULT_SOURCE 1
#endif

#include <stdbool.h>
#include <stddef.h>
#include <stdint.h>
#include <string.h>
#ifdef __cplusplus
#include <atomic>
#endif

#define PMTRACE_TEXT_OF_(number) #number
#define PMTRACE_TEXT_(number) PMTRACE_TEXT_OF_(number)

/* The label of a call: its source line, by which the function is known too, or none. The functions whose names end in _at take a
 * label, for an engine's own helpers that hand on where they were called. A label is a text of one line. */
#if defined PMTRACE_LABELS && !defined PMTRACE_OFF
#define PMTRACE_HERE pmtrace_in_(__FILE__ ":" PMTRACE_TEXT_(__LINE__), __builtin_FUNCTION())
#else
#define PMTRACE_HERE ((const char *)0)
#endif

/* pmtrace_open(file, base, length, line_size) begins a trace in `file`, whose first pool is the `length` bytes from `base` on, with
 * cache lines of 32, 64, 128 or 256 bytes. While that trace is open, a further call with the same file, or with NULL for it, adds
 * a pool to it. Answers 0, or -1 where the range is not recorded; standard error says why.
 * Addresses in the trace are distances from the beginning of the pool's first line; those of a further pool begin at the next
 * multiple of 2^40. A file that is mapped twice, or again, or longer than before, has the same addresses each time; so has a range
 * that begins where a pool does and is longer. That two mappings are of one file is read in /proc/self/maps. */
#define pmtrace_open(...) pmtrace_open_at(PMTRACE_HERE, __VA_ARGS__)

/* With PMTRACE_BASE=1 in the environment, `file`.base gets the first pool's bytes as they stand when recording begins: when it is
 * opened, or with a window when that opens. `file`.origin gets one line, the address in the trace of the pool's first byte. Further
 * pools have .base2 and .origin2, and so on; what a pool grows by is added. By these pmtrim makes the pool as a crash leaves it. A base
 * that can't be written is told of and removed, and pmtrace_close answers -1. Bases of an earlier trace of that name are removed. */

/* pmtrace_forget(start, length) comes before a range is unmapped, moved or cut off: it belongs to no pool any more, until it is
 * opened again. Answers 0, or -1 where nothing of the range is in a pool of an open trace. */
#define pmtrace_forget(...) pmtrace_forget_at(PMTRACE_HERE, __VA_ARGS__)

/* pmtrace_close() ends the trace of all pools; when the program exits this is done unasked, after the destructors of its static
 * objects. Answers 0 where all that the calls did to the pools since pmtrace_open, or in the window, is in the trace, no call
 * reached outside, no child made by fork reached a shared pool, and nothing was seen to escape pmtrace_watch. Else -1; standard
 * error says why. */
#define pmtrace_close() pmtrace_close_at(PMTRACE_HERE)

/* pmtrace_watch() keeps a copy of the open trace's pools from here on, those that are opened later too. Stores that the recorder
 * was not told of are noticed by it: in the lines of a store, flush or assertion when that comes, and in the whole pools at each
 * fence, at each clflush, where the window opens or closes, and at the end. What changed since the last look is noted by rising
 * address, for the thread that looks; what changed back is not seen. Where Linux tells of the pages that a mapping changed (6.7 and
 * later) these alone are looked at, and at the end all of them: what then differs was changed by other means (write(2), another
 * process, a mapping that was not opened), is noted there, and told. The environment's PMTRACE_WATCH=all looks at all each time.
 * Answers 0, or -1 where there is no memory for the copy or no open trace. */
#define pmtrace_watch() pmtrace_watch_at(PMTRACE_HERE)

/* The window: after pmtrace_stop() nothing is written to the trace, and after pmtrace_start() it is again; it is open at first.
 * Meanwhile stores are done, and followed by lines: at the start, the words of a line that was stored to and not flushed and
 * fenced since are noted as stores, and its flush if one is open, so that it is not taken for safe. What was made safe counts as
 * what stood in the pool from the first, where the trace has no store yet; else its lines are noted too, as stores and a clflush.
 * What was stored before the stop, and flushed or fenced after it, counts as not flushed. A claim of order about bytes of the second
 * range whose last store came before the window is set aside, which is told: the trace can't say when these became safe. So a claim
 * that passes in a window passes in the whole run.
 * The environment's PMTRACE_START=N leaves out the first N events, to the end of the call that makes event N; PMTRACE_STOP=N leaves
 * out what comes after the call that makes event N. Answer 0, or -1 where no trace is open.
 * A trace ends at 1,000,000 events, which is as many as pmtrim reads at once. With PMTRACE_WHOLE=1 in the environment it has them all:
 * pmtrim parts cuts it then. */
#define pmtrace_start() pmtrace_start_at(PMTRACE_HERE)
#define pmtrace_stop() pmtrace_stop_at(PMTRACE_HERE)

#ifdef __cplusplus
#define PMTRACE_ASSERT_(claim, text) static_assert(claim, text)
#define PMTRACE_ASSERT_PLAIN_(type) \
    PMTRACE_ASSERT_(__is_trivially_copyable(type), "pmtrace.h: this type is not copied by its bytes")
#else
#define PMTRACE_ASSERT_(claim, text) _Static_assert(claim, text)
#define PMTRACE_ASSERT_PLAIN_(type) PMTRACE_ASSERT_(sizeof(type) > 0, "pmtrace.h: this type has no bytes")
#endif

/* The type of a place's value: without const, volatile, _Atomic and std::atomic. */
#ifdef __cplusplus
template <class type> type pmtrace_value_of_(const volatile type &);
template <class type> type pmtrace_value_of_(const volatile std::atomic<type> &);
#define PMTRACE_TYPE_(place) __typeof__(pmtrace_value_of_(place))
#else
#define PMTRACE_TYPE_(place) __typeof__(((void)0, (place)))
#endif

/* Names that are new at each use, for calls within calls. */
#define PMTRACE_GLUE_TEXTS_(one, other) one##other
#define PMTRACE_GLUE_(one, other) PMTRACE_GLUE_TEXTS_(one, other)

/* Bytes between the fields of a struct are zero in the pool and the trace, where the compiler can do that. */
#ifdef __has_builtin
#if __has_builtin(__builtin_clear_padding)
#define PMTRACE_CLEAR_PADDING_(value) __builtin_clear_padding(value)
#endif
#endif
#ifndef PMTRACE_CLEAR_PADDING_
#define PMTRACE_CLEAR_PADDING_(value) ((void)0)
#endif

/* pmtrace_store(place, value) is `place = value`, of a place of any type that `=` copies by its bytes; no bit field. A place of 1, 2,
 * 4 or 8 bytes, aligned to them, is stored to at once. */
#ifdef PMTRACE_OFF
#define pmtrace_store(place, ...) ((void)((place) = (__VA_ARGS__)))
#else
#define pmtrace_store(place, ...) \
    do { \
        PMTRACE_ASSERT_PLAIN_(PMTRACE_TYPE_(place)); \
        PMTRACE_TYPE_(place) pmtrace_value_ = (__VA_ARGS__); \
        PMTRACE_ASSERT_(sizeof(place) == sizeof pmtrace_value_, "pmtrace.h: this type is more than its value"); \
        PMTRACE_CLEAR_PADDING_(&pmtrace_value_); \
        pmtrace_store_at(PMTRACE_HERE, &(place), &pmtrace_value_, sizeof pmtrace_value_); \
    } while (0)
#endif

/* As memcpy, memmove and memset, of any length. In the trace they are stores of at most an aligned word each, by rising address. A
 * store that takes more events than the trace has room for is done, and the trace ends before it. */
#define pmtrace_memcpy(...) pmtrace_memcpy_at(PMTRACE_HERE, __VA_ARGS__)
#define pmtrace_memmove(...) pmtrace_memmove_at(PMTRACE_HERE, __VA_ARGS__)
#define pmtrace_memset(...) pmtrace_memset_at(PMTRACE_HERE, __VA_ARGS__)

/* A copy or fill by non-temporal stores, as memmove and memset: the stores, and clflushopt of their lines, with no event of another
 * thread between. The thread's next fence makes them safe. */
#define pmtrace_memcpy_nontemporal(...) pmtrace_memcpy_nontemporal_at(PMTRACE_HERE, __VA_ARGS__)
#define pmtrace_memset_nontemporal(...) pmtrace_memset_nontemporal_at(PMTRACE_HERE, __VA_ARGS__)

/* Atomic operations, sequentially consistent, on an aligned place of 1, 2, 4 or 8 bytes: so many as the pointer's type has. Exchanges
 * are of any such type, on x86-64 of 16 bytes too; the others are of integers. Each answers what stood there before, but
 * pmtrace_compare_exchange(place, &expected, value) whether it stored; where it did not, `expected` gets what stood there.
 * In the trace a plain store stands for one that wrote, and no fence: on the processor a locked instruction waits for the thread's
 * flushes as sfence does, so a failed assertion may be a false alarm where the program counts on that, and a passed one is true.
 * Call pmtrace_sfence before it to say that it does. */
#define pmtrace_exchange(place, ...) \
    PMTRACE_EXCHANGE_(PMTRACE_GLUE_(pmtrace_new_, __COUNTER__), PMTRACE_GLUE_(pmtrace_old_, __COUNTER__), place, __VA_ARGS__)
#define pmtrace_compare_exchange(place, expected, ...) \
    PMTRACE_COMPARE_EXCHANGE_(PMTRACE_GLUE_(pmtrace_new_, __COUNTER__), place, expected, __VA_ARGS__)
#define pmtrace_fetch_add(place, ...) PMTRACE_FETCH_(PMTRACE_ADD, place, __VA_ARGS__)
#define pmtrace_fetch_sub(place, ...) PMTRACE_FETCH_(PMTRACE_SUB, place, __VA_ARGS__)
#define pmtrace_fetch_and(place, ...) PMTRACE_FETCH_(PMTRACE_AND, place, __VA_ARGS__)
#define pmtrace_fetch_or(place, ...) PMTRACE_FETCH_(PMTRACE_OR, place, __VA_ARGS__)
#define pmtrace_fetch_xor(place, ...) PMTRACE_FETCH_(PMTRACE_XOR, place, __VA_ARGS__)

#define PMTRACE_EXCHANGE_(new_value, old_value, place, ...) \
    __extension__({ \
        PMTRACE_TYPE_(*(place)) new_value = (__VA_ARGS__), old_value; \
        PMTRACE_ASSERT_EXCHANGED_(*(place), new_value); \
        PMTRACE_CLEAR_PADDING_(&new_value); \
        old_value = \
            *(__typeof__(old_value) *)pmtrace_exchange_at(PMTRACE_HERE, (place), sizeof new_value, &new_value, &old_value); \
    })
#define PMTRACE_COMPARE_EXCHANGE_(new_value, place, expected, ...) \
    __extension__({ \
        PMTRACE_TYPE_(*(place)) new_value = (__VA_ARGS__); \
        PMTRACE_ASSERT_EXCHANGED_(*(place), new_value); \
        PMTRACE_ASSERT_(sizeof *(expected) == sizeof new_value, "pmtrace.h: what is expected has the place's type"); \
        PMTRACE_CLEAR_PADDING_(&new_value); \
        pmtrace_compare_exchange_at(PMTRACE_HERE, (place), sizeof new_value, (expected), &new_value); \
    })
#define PMTRACE_FETCH_(kind, place, ...) \
    PMTRACE_FETCH_NAMED_(PMTRACE_GLUE_(pmtrace_new_, __COUNTER__), PMTRACE_GLUE_(pmtrace_old_, __COUNTER__), kind, place, \
                         __VA_ARGS__)
#define PMTRACE_FETCH_NAMED_(new_value, old_value, kind, place, ...) \
    __extension__({ \
        PMTRACE_TYPE_(*(place)) new_value = (__VA_ARGS__), old_value; \
        PMTRACE_ASSERT_(sizeof(new_value | 0) && sizeof new_value <= 8, "pmtrace.h: an integer of at most 8 bytes"); \
        PMTRACE_ASSERT_EXCHANGED_(*(place), new_value); \
        old_value = \
            *(__typeof__(old_value) *)pmtrace_fetch_at(PMTRACE_HERE, kind, (place), sizeof new_value, &new_value, &old_value); \
    })

#ifdef __x86_64__
#define PMTRACE_MOST_EXCHANGED_ 16
#else
#define PMTRACE_MOST_EXCHANGED_ 8
#endif
#define PMTRACE_ASSERT_EXCHANGED_(place, value) \
    PMTRACE_ASSERT_PLAIN_(__typeof__(value)); \
    PMTRACE_ASSERT_(sizeof(place) == sizeof(value), "pmtrace.h: this type is more than its value"); \
    PMTRACE_ASSERT_(sizeof(value) <= PMTRACE_MOST_EXCHANGED_ && (sizeof(value) & (sizeof(value) - 1)) == 0, \
                    "pmtrace.h: no atomic operation has this size")

/* Notes a flush of each line of the range, by the named instruction. */
#define pmtrace_clwb(...) pmtrace_flush_at(PMTRACE_HERE, PMTRACE_CLWB, __VA_ARGS__)
#define pmtrace_clflushopt(...) pmtrace_flush_at(PMTRACE_HERE, PMTRACE_CLFLUSHOPT, __VA_ARGS__)
#define pmtrace_clflush(...) pmtrace_flush_at(PMTRACE_HERE, PMTRACE_CLFLUSH, __VA_ARGS__)

/* Notes a fence of the calling thread. */
#define pmtrace_sfence() pmtrace_fence_at(PMTRACE_HERE, PMTRACE_SFENCE)
#define pmtrace_mfence() pmtrace_fence_at(PMTRACE_HERE, PMTRACE_MFENCE)

/* pmtrace_persist(start, length): pmtrace_clwb of the range, and pmtrace_sfence, with no event of another thread between. */
#define pmtrace_persist(...) pmtrace_persist_at(PMTRACE_HERE, __VA_ARGS__)

/* pmtrace_is_persist(start, length): the claim that no crash from here on loses what was stored last in the range.
 * pmtrace_is_ordered_before(first, first_length, second, second_length): the claim that at no moment so far a crash could leave
 * some of what was stored last in the second range without all of the first. pmtrim judges them. Longer ranges are cut at 4096
 * bytes, into an assertion for each piece, or for each pair of pieces: the claim holds exactly where all of these pass. */
#define pmtrace_is_persist(...) pmtrace_is_persist_at(PMTRACE_HERE, __VA_ARGS__)
#define pmtrace_is_ordered_before(...) pmtrace_is_ordered_before_at(PMTRACE_HERE, __VA_ARGS__)

#ifdef __cplusplus
extern "C" {
#endif

typedef enum pmtrace_flush_kind { PMTRACE_CLWB, PMTRACE_CLFLUSHOPT, PMTRACE_CLFLUSH } pmtrace_flush_kind;
typedef enum pmtrace_fence_kind { PMTRACE_SFENCE, PMTRACE_MFENCE } pmtrace_fence_kind;
typedef enum pmtrace_fetch_kind { PMTRACE_ADD, PMTRACE_SUB, PMTRACE_AND, PMTRACE_OR, PMTRACE_XOR } pmtrace_fetch_kind;
