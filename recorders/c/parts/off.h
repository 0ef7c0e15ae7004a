static inline int pmtrace_open_at(const char *label, const char *file, const void *base, size_t length, unsigned line_size) {
    (void)label, (void)file, (void)base, (void)length, (void)line_size;
    return 0;
}

static inline int pmtrace_forget_at(const char *label, const void *start, size_t length) {
    (void)label, (void)start, (void)length;
    return 0;
}

static inline int pmtrace_close_at(const char *label) {
    (void)label;
    return 0;
}

static inline int pmtrace_watch_at(const char *label) {
    (void)label;
    return 0;
}

static inline int pmtrace_start_at(const char *label) {
    (void)label;
    return 0;
}

static inline int pmtrace_stop_at(const char *label) {
    (void)label;
    return 0;
}

static inline bool pmtrace_records(const void *start, size_t length) {
    (void)start, (void)length;
    return false;
}

static inline void pmtrace_store_at(const char *label, volatile void *place, const volatile void *value, size_t size) {
    (void)label;
    pmtrace_do_store_(place, size, value);
}

static inline void *pmtrace_memcpy_at(const char *label, void *to, const void *from, size_t length) {
    (void)label;
    return memcpy(to, from, length);
}

static inline void *pmtrace_memmove_at(const char *label, void *to, const void *from, size_t length) {
    (void)label;
    return memmove(to, from, length);
}

static inline void *pmtrace_memset_at(const char *label, void *to, int byte, size_t length) {
    (void)label;
    return memset(to, byte, length);
}

static inline void *pmtrace_memcpy_nontemporal_at(const char *label, void *to, const void *from, size_t length) {
    return pmtrace_memmove_at(label, to, from, length);
}

static inline void *pmtrace_memset_nontemporal_at(const char *label, void *to, int byte, size_t length) {
    return pmtrace_memset_at(label, to, byte, length);
}

static inline void *pmtrace_exchange_at(const char *label, volatile void *place, size_t size, const volatile void *value,
                                        volatile void *before) {
    uint64_t new_value[2] = {0, 0}, old_value[2] = {0, 0};
    (void)label;
    pmtrace_get_(new_value, value, size);
    pmtrace_do_exchange_(place, size, new_value, old_value);
    pmtrace_set_(before, old_value, size);
    return (void *)(uintptr_t)before;
}

static inline bool pmtrace_compare_exchange_at(const char *label, volatile void *place, size_t size, volatile void *expected,
                                               const volatile void *value) {
    uint64_t new_value[2] = {0, 0}, old_value[2] = {0, 0};
    (void)label;
    pmtrace_get_(new_value, value, size);
    pmtrace_get_(old_value, expected, size);
    bool done = pmtrace_do_compare_exchange_(place, size, old_value, new_value);
    if (!done)
        pmtrace_set_(expected, old_value, size);
    return done;
}

static inline void *pmtrace_fetch_at(const char *label, pmtrace_fetch_kind kind, volatile void *place, size_t size,
                                     const volatile void *value, volatile void *before) {
    uint64_t operand = 0;
    (void)label;
    pmtrace_get_(&operand, value, size);
    operand = pmtrace_do_fetch_(kind, place, size, operand);
    pmtrace_set_(before, &operand, size);
    return (void *)(uintptr_t)before;
}

static inline void pmtrace_flush_at(const char *label, pmtrace_flush_kind kind, const void *start, size_t length) {
    (void)label, (void)kind, (void)start, (void)length;
}

static inline void pmtrace_fence_at(const char *label, pmtrace_fence_kind kind) {
    (void)label, (void)kind;
}

static inline void pmtrace_persist_at(const char *label, const void *start, size_t length) {
    (void)label, (void)start, (void)length;
}

static inline void pmtrace_is_persist_at(const char *label, const void *start, size_t length) {
    (void)label, (void)start, (void)length;
}

static inline void pmtrace_is_ordered_before_at(const char *label, const void *first, size_t first_length, const void *second,
                                                size_t second_length) {
    (void)label, (void)first, (void)first_length, (void)second, (void)second_length;
}
