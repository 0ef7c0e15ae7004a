/* --- atomic operations, as the compiler does them --- */

typedef uint8_t __attribute__((may_alias)) pmtrace_bytes1_;
typedef uint16_t __attribute__((may_alias)) pmtrace_bytes2_;
typedef uint32_t __attribute__((may_alias)) pmtrace_bytes4_;
typedef uint64_t __attribute__((may_alias)) pmtrace_bytes8_;

#define PMTRACE_FETCH_AS_(type) \
    switch (kind) { \
    case PMTRACE_ADD: \
        return __atomic_fetch_add((volatile type *)place, (type)value, __ATOMIC_SEQ_CST); \
    case PMTRACE_SUB: \
        return __atomic_fetch_sub((volatile type *)place, (type)value, __ATOMIC_SEQ_CST); \
    case PMTRACE_AND: \
        return __atomic_fetch_and((volatile type *)place, (type)value, __ATOMIC_SEQ_CST); \
    case PMTRACE_OR: \
        return __atomic_fetch_or((volatile type *)place, (type)value, __ATOMIC_SEQ_CST); \
    default: \
        return __atomic_fetch_xor((volatile type *)place, (type)value, __ATOMIC_SEQ_CST); \
    }

static inline uint64_t pmtrace_do_fetch_(pmtrace_fetch_kind kind, volatile void *place, size_t size, uint64_t value) {
    switch (size) {
    case 1:
        PMTRACE_FETCH_AS_(pmtrace_bytes1_)
    case 2:
        PMTRACE_FETCH_AS_(pmtrace_bytes2_)
    case 4:
        PMTRACE_FETCH_AS_(pmtrace_bytes4_)
    default:
        PMTRACE_FETCH_AS_(pmtrace_bytes8_)
    }
}

#ifdef __x86_64__
typedef struct __attribute__((may_alias)) pmtrace_bytes16_ {
    uint64_t words[2];
} pmtrace_bytes16_;

/* Two words are compared with what is expected; where they are equal the value is stored, else they are read. */
static inline bool pmtrace_do_compare_exchange_16_(volatile void *place, uint64_t expected[2], const uint64_t value[2]) {
    bool done;
    __asm__ __volatile__("lock cmpxchg16b %1"
                         : "=@ccz"(done), "+m"(*(volatile pmtrace_bytes16_ *)place), "+a"(expected[0]), "+d"(expected[1])
                         : "b"(value[0]), "c"(value[1])
                         : "memory");
    return done;
}
#else
static inline bool pmtrace_do_compare_exchange_16_(volatile void *place, uint64_t expected[2], const uint64_t value[2]) {
    (void)place, (void)expected, (void)value;
    return false;
}
#endif

/* The same of 1 to 8 bytes, which are the first of the words. */
#define PMTRACE_COMPARE_EXCHANGE_AS_(type) \
    __atomic_compare_exchange_n((volatile type *)place, (type *)expected, *(const type *)value, false, __ATOMIC_SEQ_CST, \
                                __ATOMIC_SEQ_CST)

static inline bool pmtrace_do_compare_exchange_(volatile void *place, size_t size, uint64_t expected[2],
                                                const uint64_t value[2]) {
    switch (size) {
    case 1:
        return PMTRACE_COMPARE_EXCHANGE_AS_(pmtrace_bytes1_);
    case 2:
        return PMTRACE_COMPARE_EXCHANGE_AS_(pmtrace_bytes2_);
    case 4:
        return PMTRACE_COMPARE_EXCHANGE_AS_(pmtrace_bytes4_);
    case 8:
        return PMTRACE_COMPARE_EXCHANGE_AS_(pmtrace_bytes8_);
    default:
        return pmtrace_do_compare_exchange_16_(place, expected, value);
    }
}

/* Stores the value, and answers in `before` what stood there. */
static inline void pmtrace_do_exchange_(volatile void *place, size_t size, const uint64_t value[2], uint64_t before[2]) {
    switch (size) {
    case 1:
        *(pmtrace_bytes1_ *)before =
            __atomic_exchange_n((volatile pmtrace_bytes1_ *)place, *(const pmtrace_bytes1_ *)value, __ATOMIC_SEQ_CST);
        break;
    case 2:
        *(pmtrace_bytes2_ *)before =
            __atomic_exchange_n((volatile pmtrace_bytes2_ *)place, *(const pmtrace_bytes2_ *)value, __ATOMIC_SEQ_CST);
        break;
    case 4:
        *(pmtrace_bytes4_ *)before =
            __atomic_exchange_n((volatile pmtrace_bytes4_ *)place, *(const pmtrace_bytes4_ *)value, __ATOMIC_SEQ_CST);
        break;
    case 8:
        *(pmtrace_bytes8_ *)before =
            __atomic_exchange_n((volatile pmtrace_bytes8_ *)place, *(const pmtrace_bytes8_ *)value, __ATOMIC_SEQ_CST);
        break;
    default:
        while (!pmtrace_do_compare_exchange_16_(place, before, value))
            ;
    }
}

/* A store of a value of any size: at once where the processor has such a store. */
static inline void pmtrace_do_store_(volatile void *place, size_t size, const volatile void *value) {
    uintptr_t from = (uintptr_t)value, to = (uintptr_t)place;
    bool aligned = size <= 8 && to % size == 0;
    if (aligned && size == 1)
        __atomic_store_n((pmtrace_bytes1_ *)to, *(const pmtrace_bytes1_ *)from, __ATOMIC_RELEASE);
    else if (aligned && size == 2)
        __atomic_store_n((pmtrace_bytes2_ *)to, *(const pmtrace_bytes2_ *)from, __ATOMIC_RELEASE);
    else if (aligned && size == 4)
        __atomic_store_n((pmtrace_bytes4_ *)to, *(const pmtrace_bytes4_ *)from, __ATOMIC_RELEASE);
    else if (aligned && size == 8)
        __atomic_store_n((pmtrace_bytes8_ *)to, *(const pmtrace_bytes8_ *)from, __ATOMIC_RELEASE);
    else
        memmove((void *)to, (const void *)from, size);
}

/* Copies of the bytes of a value of any type. */
static inline void pmtrace_get_(void *to, const volatile void *from, size_t size) {
    memcpy(to, (const void *)(uintptr_t)from, size);
}

static inline void pmtrace_set_(volatile void *to, const void *from, size_t size) {
    memcpy((void *)(uintptr_t)to, from, size);
}
