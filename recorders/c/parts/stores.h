/* --- stores --- */

/* Begins a store to a range: what was written to its lines before is noticed. */
static bool pmtrace_enter_store_(const char *label, const volatile void *to, size_t length) {
    pmtrace_range_ piece;
    if (!pmtrace_enter_(label, to, length))
        return false;
    pmtrace_walk_ walk = pmtrace_walk_over_(to, length);
    while (pmtrace_.watching && pmtrace_next_(&walk, &piece))
        pmtrace_notice_lines_(piece);
    return true;
}

/* Notes the store, which was done. With `flushed` its lines are flushed at once. */
static void pmtrace_leave_store_(const volatile void *to, size_t length, bool flushed) {
    pmtrace_range_ piece;
    pmtrace_walk_ walk = pmtrace_walk_over_(to, length);
    while (pmtrace_next_(&walk, &piece))
        pmtrace_note_stores_(piece);
    walk = pmtrace_walk_over_(to, length);
    walk.told = true;
    while (flushed && pmtrace_next_(&walk, &piece))
        pmtrace_note_flushes_(PMTRACE_CLFLUSHOPT, piece);
    pmtrace_leave_();
}

void *pmtrace_memmove_at(const char *label, void *to, const void *from, size_t length) {
    bool open = pmtrace_enter_store_(label, to, length);
    if (length > 0)
        memmove(to, from, length);
    if (open)
        pmtrace_leave_store_(to, length, false);
    return to;
}

void *pmtrace_memcpy_at(const char *label, void *to, const void *from, size_t length) {
    return pmtrace_memmove_at(label, to, from, length);
}

void pmtrace_store_at(const char *label, volatile void *place, const volatile void *value, size_t size) {
    bool open = pmtrace_enter_store_(label, place, size);
    pmtrace_do_store_(place, size, value);
    if (open)
        pmtrace_leave_store_(place, size, false);
}

void *pmtrace_memset_at(const char *label, void *to, int byte, size_t length) {
    bool open = pmtrace_enter_store_(label, to, length);
    if (length > 0)
        memset(to, byte, length);
    if (open)
        pmtrace_leave_store_(to, length, false);
    return to;
}

void *pmtrace_memcpy_nontemporal_at(const char *label, void *to, const void *from, size_t length) {
    bool open = pmtrace_enter_store_(label, to, length);
    if (length > 0)
        memmove(to, from, length);
    if (open)
        pmtrace_leave_store_(to, length, true);
    return to;
}

void *pmtrace_memset_nontemporal_at(const char *label, void *to, int byte, size_t length) {
    bool open = pmtrace_enter_store_(label, to, length);
    if (length > 0)
        memset(to, byte, length);
    if (open)
        pmtrace_leave_store_(to, length, true);
    return to;
}

void *pmtrace_exchange_at(const char *label, volatile void *place, size_t size, const volatile void *value,
                          volatile void *before) {
    uint64_t new_value[2] = {0, 0}, old_value[2] = {0, 0};
    pmtrace_get_(new_value, value, size);
    bool open = pmtrace_enter_store_(label, place, size);
    pmtrace_do_exchange_(place, size, new_value, old_value);
    if (open)
        pmtrace_leave_store_(place, size, false);
    pmtrace_set_(before, old_value, size);
    return (void *)(uintptr_t)before;
}

bool pmtrace_compare_exchange_at(const char *label, volatile void *place, size_t size, volatile void *expected,
                                 const volatile void *value) {
    uint64_t new_value[2] = {0, 0}, old_value[2] = {0, 0};
    pmtrace_get_(new_value, value, size);
    pmtrace_get_(old_value, expected, size);
    bool open = pmtrace_enter_store_(label, place, size);
    bool done = pmtrace_do_compare_exchange_(place, size, old_value, new_value);
    if (open)
        pmtrace_leave_store_(place, done ? size : 0, false);
    if (!done)
        pmtrace_set_(expected, old_value, size);
    return done;
}

void *pmtrace_fetch_at(const char *label, pmtrace_fetch_kind kind, volatile void *place, size_t size, const volatile void *value,
                       volatile void *before) {
    uint64_t operand = 0;
    pmtrace_get_(&operand, value, size);
    bool open = pmtrace_enter_store_(label, place, size);
    operand = pmtrace_do_fetch_(kind, place, size, operand);
    if (open)
        pmtrace_leave_store_(place, size, false);
    pmtrace_set_(before, &operand, size);
    return (void *)(uintptr_t)before;
}
