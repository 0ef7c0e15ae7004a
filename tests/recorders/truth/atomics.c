/* Atomic operations of each size that the recorder has. */
#define _GNU_SOURCE 1
#define PMTRACE_LABELS
#include "pmtrace.h"

#include "atomics.h"

typedef uint8_t __attribute__((may_alias)) word1;
typedef uint16_t __attribute__((aligned(1), may_alias)) word2;
typedef uint32_t __attribute__((aligned(1), may_alias)) word4;
typedef uint64_t __attribute__((aligned(1), may_alias)) word8;
typedef uint16_t __attribute__((may_alias)) even2;
typedef uint32_t __attribute__((may_alias)) even4;
typedef uint64_t __attribute__((may_alias)) even8;
typedef struct pair {
    uint64_t word[2];
} __attribute__((aligned(16), may_alias)) pair;

__attribute__((no_sanitize("thread"))) uint64_t value_at(const unsigned char *from, uint64_t size) {
    switch (size) {
    case 1:
        return *(const volatile word1 *)from;
    case 2:
        return *(const volatile word2 *)(const void *)from;
    case 4:
        return *(const volatile word4 *)(const void *)from;
    default:
        return *(const volatile word8 *)(const void *)from;
    }
}

#define EXCHANGE_AS(type) log->seen[0] = pmtrace_exchange((type *)(void *)place, (type)value_at(from, sizeof(type)))

#define COMPARE_AS(type) \
    do { \
        type expected = (type)value_at(guess, sizeof(type)); \
        log->expected[0] = expected; \
        log->answer = pmtrace_compare_exchange((type *)(void *)place, &expected, (type)value_at(from, sizeof(type))); \
        log->seen[0] = expected; \
    } while (0)

static void exchange_pair(const operation *what, pair *place, const unsigned char *guess, const unsigned char *from,
                          record *log) {
    pair value = {{value_at(from, 8), value_at(from + 8, 8)}}, expected = {{value_at(guess, 8), value_at(guess + 8, 8)}};
    if (what->word == EXCHANGE) {
        expected = pmtrace_exchange(place, value);
    } else {
        log->expected[0] = expected.word[0];
        log->expected[1] = expected.word[1];
        log->answer = pmtrace_compare_exchange(place, &expected, value);
    }
    log->seen[0] = expected.word[0];
    log->seen[1] = expected.word[1];
}

static void compare(uint64_t size, unsigned char *place, const unsigned char *guess, const unsigned char *from, record *log) {
    if (size == 1)
        COMPARE_AS(word1);
    else if (size == 2)
        COMPARE_AS(even2);
    else if (size == 4)
        COMPARE_AS(even4);
    else
        COMPARE_AS(even8);
}

void exchange(const operation *what, unsigned char *place, record *log) {
    const unsigned char *from = data + what->numbers[3], *guess = what->numbers[5] == 1 ? place : data + what->numbers[4];
    uint64_t size = what->numbers[2];
    if (size == 16)
        exchange_pair(what, (pair *)(void *)place, guess, from, log);
    else if (what->word == COMPARE)
        compare(size, place, guess, from, log);
    else if (size == 1)
        EXCHANGE_AS(word1);
    else if (size == 2)
        EXCHANGE_AS(even2);
    else if (size == 4)
        EXCHANGE_AS(even4);
    else
        EXCHANGE_AS(even8);
}

#define FETCH_AS(type) \
    do { \
        type *at = (type *)(void *)place, value = (type)value_at(data + what->numbers[3], sizeof(type)); \
        if (what->word == ADD) \
            log->seen[0] = pmtrace_fetch_add(at, value); \
        else if (what->word == SUB) \
            log->seen[0] = pmtrace_fetch_sub(at, value); \
        else if (what->word == AND) \
            log->seen[0] = pmtrace_fetch_and(at, value); \
        else if (what->word == OR) \
            log->seen[0] = pmtrace_fetch_or(at, value); \
        else \
            log->seen[0] = pmtrace_fetch_xor(at, value); \
    } while (0)

void fetch(const operation *what, unsigned char *place, record *log) {
    if (what->numbers[2] == 1)
        FETCH_AS(word1);
    else if (what->numbers[2] == 2)
        FETCH_AS(even2);
    else if (what->numbers[2] == 4)
        FETCH_AS(even4);
    else
        FETCH_AS(even8);
}
