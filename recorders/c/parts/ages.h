/* --- the ages of stores, where a window was closed --- */

/* A claim of order about bytes whose last store came before the window opened asks when older bytes became safe, which the trace does not
 * tell: it might pass there and fail in the whole run. For each line, which bytes were stored to last while the window was as it is, and
 * which before. */

enum { PMTRACE_MASK_BYTES_ = 256 / 8 }; /* of the longest line */

typedef struct pmtrace_age_ {
    uint64_t address;
    unsigned window; /* when the newer stores were made; 0: the place in the table is free */
    unsigned char newer[PMTRACE_MASK_BYTES_], older[PMTRACE_MASK_BYTES_];
} pmtrace_age_;

/* A place takes only so much of the masks as a line of the trace has, to whole words. */
static size_t pmtrace_age_size_(void) {
    size_t size = offsetof(pmtrace_age_, newer) + 2 * (size_t)pmtrace_.line_size / 8;
    return (size + sizeof(uint64_t) - 1) / sizeof(uint64_t) * sizeof(uint64_t);
}

static unsigned char *pmtrace_age_older_(pmtrace_age_ *age) {
    return age->newer + pmtrace_.line_size / 8;
}

/* The place in the table where the line is, or belongs. */
static pmtrace_age_ *pmtrace_find_age_(char *ages, size_t room, uint64_t address) {
    size_t at = (size_t)(address / pmtrace_.line_size * UINT64_C(0x9e3779b97f4a7c15) >> 20) & (room - 1);
    for (;;) {
        pmtrace_age_ *age = (pmtrace_age_ *)(void *)(ages + at * pmtrace_age_size_());
        if (age->window == 0 || age->address == address)
            return age;
        at = (at + 1) & (room - 1);
    }
}

static void pmtrace_forget_ages_(void) {
    free(pmtrace_.ages);
    pmtrace_.ages = NULL;
    pmtrace_.age_room = pmtrace_.age_count = 0;
}

/* Makes room for one line more. Without memory nothing is known. */
static bool pmtrace_make_age_room_(void) {
    const size_t size = pmtrace_age_size_(), room = pmtrace_.age_room, more = room == 0 ? 1024 : 2 * room;
    if (2 * (pmtrace_.age_count + 1) <= room)
        return true;
    char *ages = (char *)calloc(more, size);
    if (ages == NULL) {
        pmtrace_.ages_known = false;
        return false;
    }
    for (size_t at = 0; at < room; at++) {
        pmtrace_age_ *age = (pmtrace_age_ *)(void *)(pmtrace_.ages + at * size);
        if (age->window != 0)
            memcpy((void *)pmtrace_find_age_(ages, more, age->address), age, size);
    }
    free(pmtrace_.ages);
    pmtrace_.ages = ages;
    pmtrace_.age_room = more;
    return true;
}

/* Newer stores of an earlier window are older ones now. */
static void pmtrace_let_age_(pmtrace_age_ *age) {
    for (unsigned at = 0; age->window != pmtrace_.window_number && at < pmtrace_.line_size / 8; at++) {
        pmtrace_age_older_(age)[at] |= age->newer[at];
        age->newer[at] = 0;
    }
    age->window = pmtrace_.window_number;
}

/* Bytes of one line were stored to. */
static void pmtrace_age_store_(uint64_t from, size_t length) {
    uint64_t line = from - from % pmtrace_.line_size;
    if (!pmtrace_.aging || !pmtrace_make_age_room_())
        return;
    pmtrace_age_ *age = pmtrace_find_age_(pmtrace_.ages, pmtrace_.age_room, line);
    if (age->window == 0) {
        age->address = line;
        age->window = pmtrace_.window_number;
        pmtrace_.age_count++;
    }
    pmtrace_let_age_(age);
    for (unsigned byte = (unsigned)(from - line); length > 0; byte++, length--) {
        age->newer[byte / 8] |= (unsigned char)(1u << byte % 8);
        pmtrace_age_older_(age)[byte / 8] &= (unsigned char)~(1u << byte % 8);
    }
}

/* Whether a byte of the range was stored to last before the window opened, or may have been. */
static bool pmtrace_is_older_(pmtrace_range_ range) {
    bool older = pmtrace_.aging && !pmtrace_.ages_known;
    for (uint64_t at = range.from; pmtrace_.aging && pmtrace_.age_room > 0 && !older && at < range.from + range.length; at++) {
        unsigned byte = (unsigned)(at % pmtrace_.line_size);
        pmtrace_age_ *age = pmtrace_find_age_(pmtrace_.ages, pmtrace_.age_room, at - byte);
        if (age->window != 0)
            pmtrace_let_age_(age);
        older = age->window != 0 && (pmtrace_age_older_(age)[byte / 8] >> byte % 8 & 1) != 0;
    }
    return older;
}

/* The stores of a line of the trace: `store T 0xA BYTES`. */
static void pmtrace_age_line_(const char *line, const char *end) {
    static const char word[] = "store ";
    char *after;
    if ((size_t)(end - line) < sizeof word || memcmp(line, word, sizeof word - 1) != 0)
        return;
    (void)strtoul(line + sizeof word - 1, &after, 10);
    uint64_t from = strtoull(after, &after, 16);
    if (after < end)
        pmtrace_age_store_(from, (size_t)(end - after - 1) / 2);
}

/* From here on ages are followed. What was stored in the first window stands in the trace, if that can be read. */
static void pmtrace_begin_aging_(void) {
    if (pmtrace_.aging)
        return;
    const char *line = pmtrace_.trace.room, *end = line + pmtrace_.trace.whole;
    pmtrace_.aging = true;
    pmtrace_.ages_known = pmtrace_.trace.mapped || pmtrace_.events == 0;
    while (pmtrace_.trace.mapped && line < end) {
        const char *next = (const char *)memchr(line, '\n', (size_t)(end - line));
        pmtrace_age_line_(line, next);
        line = next + 1;
    }
}
