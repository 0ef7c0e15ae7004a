/* --- what calls note, in the window and outside --- */

static uint64_t pmtrace_line_of_(uint64_t from) {
    return from - from % pmtrace_.line_size;
}

static void pmtrace_note_word_(uint64_t from, const unsigned char *bytes, size_t length) {
    pmtrace_age_store_(from, length);
    if (pmtrace_.window) {
        pmtrace_put_store_(from, bytes, length);
    } else {
        pmtrace_.seen++;
        pmtrace_follow_store_(pmtrace_line_of_(from));
    }
}

static uint64_t pmtrace_words_of_(pmtrace_range_ piece) {
    return (piece.from + piece.length - 1) / PMTRACE_WORD_BYTES_ - piece.from / PMTRACE_WORD_BYTES_ + 1;
}

/* Whether the trace has room for so many events. Where it has not, it ends before them. */
static bool pmtrace_has_events_(const char *what, uint64_t bytes, uint64_t events) {
    uint64_t left = pmtrace_.most_events - pmtrace_.events;
    char why[PMTRACE_MOST_LABEL_ + 300];
    if (pmtrace_.ended || left == 0 || events <= left)
        return !pmtrace_.ended;
    snprintf(why, sizeof why,
             "%s%s%s of %llu bytes takes %llu events, and there is room for %llu; pmtrace_stop or PMTRACE_START leaves it out",
             pmtrace_.label != NULL ? pmtrace_.label : "", pmtrace_.label != NULL ? ": " : "", what, (unsigned long long)bytes,
             (unsigned long long)events, (unsigned long long)left);
    pmtrace_end_(why);
    return false;
}

/* Notes what stands in a piece as stores to its words. */
static void pmtrace_note_stores_(pmtrace_range_ piece) {
    const pmtrace_pool_ *pool = NULL;
    if (piece.length > 0 && pmtrace_.window && !pmtrace_has_events_("a store", piece.length, pmtrace_words_of_(piece))) {
        pmtrace_.missing += pmtrace_words_of_(piece);
        return;
    }
    if (pmtrace_.watching)
        pool = &pmtrace_.pools[pmtrace_mapping_at_(piece.at)->pool];
    while (piece.length > 0) {
        pmtrace_range_ word = pmtrace_in_word_(piece);
        size_t into_word = (size_t)(word.from % PMTRACE_WORD_BYTES_);
        uint64_t now = pmtrace_load_(word.at - into_word);
        const unsigned char *bytes = (const unsigned char *)&now + into_word;
        if (pool != NULL && pool->copy != NULL)
            memcpy(pmtrace_copied_(pool, word.from), bytes, (size_t)word.length);
        pmtrace_note_word_(word.from, bytes, (size_t)word.length);
        piece = pmtrace_rest_(piece, word.length);
    }
}

static void pmtrace_note_flushes_(pmtrace_flush_kind kind, pmtrace_range_ piece) {
    if (pmtrace_.ended || !pmtrace_has_number_())
        kind = PMTRACE_CLFLUSH; /* which opens nothing */
    if (kind != PMTRACE_CLFLUSH)
        pmtrace_.threads[pmtrace_number_].flush_open = true;
    for (uint64_t line = pmtrace_line_of_(piece.from); line < piece.from + piece.length; line += pmtrace_.line_size) {
        if (pmtrace_.window) {
            pmtrace_put_flush_(kind, line, pmtrace_number_);
        } else {
            pmtrace_.seen++;
            pmtrace_follow_flush_(kind, line);
        }
    }
}

static void pmtrace_note_fence_(pmtrace_fence_kind kind) {
    if (!pmtrace_.ended && pmtrace_has_number_()) {
        pmtrace_.threads[pmtrace_number_].flush_open = false;
        pmtrace_.threads[pmtrace_number_].fences++;
    }
    if (pmtrace_.window)
        pmtrace_put_fence_(kind);
    else
        pmtrace_.seen++;
}

static void pmtrace_note_assertion_(const char *word, pmtrace_range_ first, const pmtrace_range_ *second) {
    if (!pmtrace_.window) {
        pmtrace_.seen++;
        return;
    }
    if (second != NULL && pmtrace_is_older_(*second)) {
        pmtrace_.aside++;
        pmtrace_.seen++;
        return;
    }
    char *at = pmtrace_begin_(word);
    if (at == NULL)
        return;
    at = pmtrace_put_count_(pmtrace_put_address_(at, first.from), first.length);
    if (second != NULL)
        at = pmtrace_put_count_(pmtrace_put_address_(at, second->from), second->length);
    pmtrace_finish_(at);
}

/* --- opening and closing the window --- */

/* A line of the pools as far as a mapping has it: of length 0 where none does. */
static pmtrace_range_ pmtrace_mapped_line_(uint64_t address) {
    pmtrace_range_ line = {address, 0, 0};
    for (unsigned number = 0; line.length == 0 && number < pmtrace_.mapping_count; number++)
        line = pmtrace_part_(pmtrace_.mappings[number].range, address, address + pmtrace_.line_size);
    return line;
}

/* Puts so many lines of the table: first the stores of all, then what flushed each, so that no order between them is claimed. */
static void pmtrace_put_lines_(size_t count) {
    for (size_t at = 0; at < count; at++)
        pmtrace_note_stores_(pmtrace_mapped_line_(pmtrace_.lines[at].address));
    for (size_t at = 0; at < count; at++) {
        const pmtrace_line_ *line = &pmtrace_.lines[at];
        if (pmtrace_is_safe_(line))
            pmtrace_put_flush_(PMTRACE_CLFLUSH, line->address, pmtrace_number_);
        else if (line->flusher != 0)
            pmtrace_put_flush_(PMTRACE_CLWB, line->address, line->flusher - 1u);
    }
}

static void pmtrace_open_window_(void) {
    if (pmtrace_.window)
        return;
    pmtrace_look_();
    size_t count = pmtrace_gather_lines_();
    uint64_t bytes = (uint64_t)count * pmtrace_.line_size, seen = pmtrace_.seen;
    pmtrace_.window = true;
    pmtrace_.window_number++;
    pmtrace_keep_bases_();
    pmtrace_.aging = false; /* what is carried is as old as it is */
    if (pmtrace_has_events_("what was stored outside the window,", bytes, bytes / PMTRACE_WORD_BYTES_ + count))
        pmtrace_put_lines_(count);
    pmtrace_.aging = true;
    pmtrace_.seen = seen;
    pmtrace_forget_lines_();
}

static void pmtrace_close_window_(void) {
    pmtrace_look_();
    if (!pmtrace_.window)
        return;
    pmtrace_begin_aging_();
    pmtrace_.window_number++;
    pmtrace_.closed_at = pmtrace_.seen;
    pmtrace_.window = false;
}

/* The window opens or closes where the environment says so. */
static void pmtrace_turn_(void) {
    if (pmtrace_.seen >= pmtrace_.start_at) {
        pmtrace_.start_at = UINT64_MAX;
        pmtrace_open_window_();
    }
    if (pmtrace_.seen >= pmtrace_.stop_at) {
        pmtrace_.stop_at = UINT64_MAX;
        pmtrace_close_window_();
    }
}
