/* --- spelling --- */

/* Each of these puts bytes at a place, and answers the place behind them. */

static char *pmtrace_put_text_(char *at, const char *text) {
    size_t length = strlen(text);
    memcpy(at, text, length);
    return at + length;
}

static char *pmtrace_put_number_(char *at, uint64_t number) {
    char digits[20];
    unsigned count = 0;
    do {
        digits[count++] = (char)('0' + number % 10);
        number /= 10;
    } while (number > 0);
    while (count > 0)
        *at++ = digits[--count];
    return at;
}

/* A field of an event's line: an address; a number; bytes. */
static char *pmtrace_put_address_(char *at, uint64_t from) {
    at = pmtrace_put_text_(at, " 0x");
    for (unsigned digits = from == 0 ? 1 : (67 - (unsigned)__builtin_clzll(from)) / 4; digits > 0; digits--)
        *at++ = "0123456789abcdef"[from >> (4 * digits - 4) & 15];
    return at;
}

static char *pmtrace_put_count_(char *at, uint64_t count) {
    *at++ = ' ';
    return pmtrace_put_number_(at, count);
}

static char *pmtrace_put_bytes_(char *at, const unsigned char *bytes, size_t length) {
    *at++ = ' ';
    for (size_t byte = 0; byte < length; byte++) {
        *at++ = "0123456789abcdef"[bytes[byte] >> 4];
        *at++ = "0123456789abcdef"[bytes[byte] & 15];
    }
    return at;
}

static char *pmtrace_put_label_(char *at, const char *label) {
    size_t length = strlen(label);
    if (length > PMTRACE_MOST_LABEL_)
        label += length - PMTRACE_MOST_LABEL_;
    for (; *label != '\0'; label++)
        *at++ = (unsigned char)*label < ' ' ? '?' : *label;
    return at;
}

/* --- events --- */

/* The trace ends, since lines could not be written: those that are left, which are whole, are missing. */
static void pmtrace_lose_(void) {
    const char *why = strerror(errno);
    const pmtrace_output_ *trace = &pmtrace_.trace;
    for (size_t at = 0; !trace->mapped && at < trace->whole; at++) {
        if (trace->room[at] == '\n') {
            pmtrace_.events--;
            pmtrace_.missing++;
        }
    }
    pmtrace_end_(why);
}

static void pmtrace_lose_labels_(void) {
    pmtrace_tell_("%s.labels: the labels end here: %s", pmtrace_.name, strerror(errno));
    pmtrace_.labeled = false;
    pmtrace_finish_file_(&pmtrace_.labels);
}

/* Writes what waits for files that are not mapped, events before their labels. */
static void pmtrace_write_all_(void) {
    if (!pmtrace_.trace.mapped && !pmtrace_.ended && !pmtrace_write_(&pmtrace_.trace))
        pmtrace_lose_();
    if (pmtrace_.labeled && !pmtrace_.labels.mapped && !pmtrace_write_(&pmtrace_.labels))
        pmtrace_lose_labels_();
}

/* Whether an event can be put. Where it can't it is missing. */
static bool pmtrace_may_put_(void) {
    if (pmtrace_is_(&pmtrace_broken_))
        pmtrace_.ended = true;
    if (!pmtrace_.ended && pmtrace_.events == pmtrace_.most_events) {
        pmtrace_write_all_();
        pmtrace_end_("a trace has at most 1000000 events");
    }
    if (!pmtrace_.ended && !pmtrace_has_room_(&pmtrace_.trace, PMTRACE_LONGEST_LINE_))
        pmtrace_lose_();
    if (pmtrace_.ended)
        pmtrace_.missing++;
    return !pmtrace_.ended;
}

/* Begins the line of an event by its word and a thread's number: answers the place behind them, or NULL. */
static char *pmtrace_begin_by_(const char *word, unsigned number) {
    pmtrace_.seen++;
    if (!pmtrace_may_put_())
        return NULL;
    pmtrace_.events++;
    return pmtrace_put_count_(pmtrace_put_text_(pmtrace_.trace.room + pmtrace_.trace.used, word), number);
}

/* Begins the line of an event of the calling thread. */
static char *pmtrace_begin_(const char *word) {
    (void)(pmtrace_.ended || pmtrace_has_number_());
    return pmtrace_begin_by_(word, pmtrace_number_);
}

static void pmtrace_put_event_label_(void) {
    const char *function = pmtrace_function_of_(pmtrace_.label);
    if (!pmtrace_has_room_(&pmtrace_.labels, PMTRACE_LONGEST_LINE_ + 2 * PMTRACE_MOST_LABEL_)) {
        pmtrace_lose_labels_();
        return;
    }
    char *at = pmtrace_put_number_(pmtrace_.labels.room + pmtrace_.labels.used, pmtrace_.events);
    *at++ = ' ';
    at = pmtrace_put_label_(at, pmtrace_.label);
    if (function != NULL && function[0] != '\0') {
        *at++ = ' ';
        at = pmtrace_put_label_(at, function);
    }
    pmtrace_put_end_(&pmtrace_.labels, at);
}

/* Ends the event's line, and notes its label. */
static void pmtrace_finish_(char *at) {
    pmtrace_put_end_(&pmtrace_.trace, at);
    if (pmtrace_.labeled && pmtrace_.label != NULL)
        pmtrace_put_event_label_();
}

static void pmtrace_put_store_(uint64_t from, const unsigned char *bytes, size_t length) {
    char *at = pmtrace_begin_("store");
    if (at != NULL) {
        pmtrace_finish_(pmtrace_put_bytes_(pmtrace_put_address_(at, from), bytes, length));
        pmtrace_.stored = true;
    }
}

static void pmtrace_put_flush_(pmtrace_flush_kind kind, uint64_t line, unsigned number) {
    static const char *const words[] = {"clwb", "clflushopt", "clflush"};
    char *at = pmtrace_begin_by_(words[kind], number);
    if (at != NULL)
        pmtrace_finish_(pmtrace_put_address_(at, line));
}

static void pmtrace_put_fence_(pmtrace_fence_kind kind) {
    char *at = pmtrace_begin_(kind == PMTRACE_MFENCE ? "mfence" : "sfence");
    if (at != NULL)
        pmtrace_finish_(at);
}
