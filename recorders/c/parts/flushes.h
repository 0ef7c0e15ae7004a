/* --- flushes, fences, assertions --- */

/* A clflush is complete at once, so what was stored anywhere before it has to stand before it. */
static void pmtrace_flush_locked_(pmtrace_flush_kind kind, const void *start, size_t length) {
    pmtrace_range_ piece;
    pmtrace_walk_ walk = pmtrace_walk_over_(start, length);
    if (kind == PMTRACE_CLFLUSH)
        pmtrace_look_();
    while (pmtrace_next_(&walk, &piece)) {
        pmtrace_notice_lines_(piece);
        pmtrace_note_flushes_(kind, piece);
    }
}

static void pmtrace_fence_locked_(pmtrace_fence_kind kind) {
    pmtrace_look_();
    pmtrace_note_fence_(kind);
}

void pmtrace_flush_at(const char *label, pmtrace_flush_kind kind, const void *start, size_t length) {
    if (pmtrace_enter_(label, start, length)) {
        pmtrace_flush_locked_(kind, start, length);
        pmtrace_leave_();
    }
}

void pmtrace_fence_at(const char *label, pmtrace_fence_kind kind) {
    if (pmtrace_enter_(label, NULL, 0)) {
        pmtrace_fence_locked_(kind);
        pmtrace_leave_();
    }
}

void pmtrace_persist_at(const char *label, const void *start, size_t length) {
    if (pmtrace_enter_(label, start, length)) {
        pmtrace_flush_locked_(PMTRACE_CLWB, start, length);
        pmtrace_fence_locked_(PMTRACE_SFENCE);
        pmtrace_leave_();
    }
}

/* Notices what was stored to the lines of a range that a claim is about. */
static void pmtrace_notice_claimed_(const void *start, size_t length) {
    pmtrace_range_ piece;
    pmtrace_walk_ walk = pmtrace_walk_over_(start, length);
    while (pmtrace_next_(&walk, &piece))
        pmtrace_notice_lines_(piece);
}

/* The next piece of a range in an assertion: in one pool, and of at most so many bytes as an assertion has. */
static bool pmtrace_next_asserted_(pmtrace_walk_ *walk, pmtrace_range_ *piece) {
    walk->told = true;
    if (!pmtrace_next_(walk, piece))
        return false;
    if (piece->length > PMTRACE_MOST_ASSERTED_) {
        walk->at -= (uintptr_t)piece->length - PMTRACE_MOST_ASSERTED_;
        piece->length = PMTRACE_MOST_ASSERTED_;
    }
    return true;
}

void pmtrace_is_persist_at(const char *label, const void *start, size_t length) {
    pmtrace_range_ piece;
    if (!pmtrace_enter_(label, start, length))
        return;
    pmtrace_notice_claimed_(start, length);
    pmtrace_walk_ walk = pmtrace_walk_over_(start, length);
    while (pmtrace_next_asserted_(&walk, &piece))
        pmtrace_note_assertion_("isPersist", piece, NULL);
    pmtrace_leave_();
}

void pmtrace_is_ordered_before_at(const char *label, const void *first, size_t first_length, const void *second,
                                  size_t second_length) {
    pmtrace_range_ one, other;
    if (!pmtrace_enter_(label, first, first_length))
        return;
    pmtrace_notice_claimed_(first, first_length);
    pmtrace_notice_claimed_(second, second_length);
    pmtrace_walk_ firsts = pmtrace_walk_over_(first, first_length);
    while (pmtrace_next_asserted_(&firsts, &one)) {
        pmtrace_walk_ seconds = pmtrace_walk_over_(second, second_length);
        while (pmtrace_next_asserted_(&seconds, &other))
            pmtrace_note_assertion_("isOrderedBefore", one, &other);
    }
    pmtrace_leave_();
}
