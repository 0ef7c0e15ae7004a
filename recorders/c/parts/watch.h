/* --- the watch: stores that the recorder was not told of --- */

static void pmtrace_note_word_(uint64_t from, const unsigned char *bytes, size_t length);

static void pmtrace_unkeep_file_(const pmtrace_pool_ *pool);

static unsigned char *pmtrace_copied_(const pmtrace_pool_ *pool, uint64_t from) {
    return pool->copy + (from - (pool->from - pool->from % PMTRACE_WORD_BYTES_));
}

/* The pools are no more. */
static void pmtrace_free_pools_(void) {
    for (unsigned number = 0; number < pmtrace_.pool_count; number++) {
        free(pmtrace_.pools[number].copy);
        pmtrace_unkeep_file_(&pmtrace_.pools[number]);
    }
    free(pmtrace_.pools);
    pmtrace_.pools = NULL;
    pmtrace_.pool_count = 0;
}

/* For what reads memory that other threads may be writing. Clang judges atomic reads unless all judging is off. */
#ifdef __has_feature
#if __has_feature(thread_sanitizer)
#define PMTRACE_UNSANITIZED_ __attribute__((noinline, disable_sanitizer_instrumentation))
#endif
#endif
#ifndef PMTRACE_UNSANITIZED_
#define PMTRACE_UNSANITIZED_ __attribute__((no_sanitize("thread"), no_sanitize("address")))
#endif

/* The word at an aligned address, as it stands at one moment. Other threads may be writing there, which is for the program to
 * answer; and of the pool's first and last word a part may be no part of it. */
PMTRACE_UNSANITIZED_ static uint64_t pmtrace_load_(uintptr_t at) {
    return __atomic_load_n((const volatile pmtrace_bytes8_ *)at, __ATOMIC_RELAXED);
}

/* Notes as a store what changed in the word that a piece lies in, as far as the pool goes: what a mapping ends inside of would be noted
 * by halves. The memory behind it is the file's, up to the end of a page. */
static void pmtrace_notice_word_(const pmtrace_pool_ *pool, pmtrace_range_ piece) {
    size_t into_word = (size_t)(piece.from % PMTRACE_WORD_BYTES_), first = 0, end = PMTRACE_WORD_BYTES_;
    if (pool->from > piece.from - into_word)
        first = (size_t)(pool->from - (piece.from - into_word));
    if (pool->end < piece.from - into_word + end)
        end = (size_t)(pool->end - (piece.from - into_word));
    uint64_t word = pmtrace_load_(piece.at - into_word);
    unsigned char now[PMTRACE_WORD_BYTES_], *before = pmtrace_copied_(pool, piece.from - into_word);
    memcpy(now, &word, sizeof now);
    while (first < end && now[first] == before[first])
        first++;
    while (end > first && now[end - 1] == before[end - 1])
        end--;
    if (first < end) {
        memcpy(before + first, now + first, end - first);
        pmtrace_note_word_(piece.from - into_word + first, now + first, end - first);
    }
}

/* How many bytes of a range of whole words are as in the copy, up to the first word that is not. */
PMTRACE_UNSANITIZED_ static uint64_t pmtrace_same_(const pmtrace_pool_ *pool, pmtrace_range_ range) {
    const volatile pmtrace_bytes8_ *now = (const volatile pmtrace_bytes8_ *)range.at;
    const pmtrace_bytes8_ *before = (const pmtrace_bytes8_ *)(const void *)pmtrace_copied_(pool, range.from);
    uint64_t words = range.length / PMTRACE_WORD_BYTES_, same = 0;
    while (same < words && __atomic_load_n(&now[same], __ATOMIC_RELAXED) == before[same])
        same++;
    return same * PMTRACE_WORD_BYTES_;
}

/* Notes as stores what the program wrote to a range of one mapping without the recorder. */
static void pmtrace_notice_(unsigned pool_number, pmtrace_range_ range) {
    const pmtrace_pool_ *pool = &pmtrace_.pools[pool_number];
    while (pool->copy != NULL && range.length > 0) {
        if (range.from % PMTRACE_WORD_BYTES_ == 0)
            range = pmtrace_rest_(range, pmtrace_same_(pool, range));
        pmtrace_range_ word = pmtrace_in_word_(range);
        if (word.length > 0)
            pmtrace_notice_word_(pool, word);
        range = pmtrace_rest_(range, word.length);
    }
}

/* Whether a page can be read: the kernel reads a set of signals there, and refuses what to do with them. */
static bool pmtrace_is_page_readable_(uintptr_t page) {
    return syscall(SYS_rt_sigprocmask, -1L, page, NULL, sizeof(uint64_t)) == 0 || errno != EFAULT;
}

/* Whether a range can be read: where it is not mapped any more, or protected, or its file is cut off, reading it would end the
 * program. */
static bool pmtrace_is_readable_(pmtrace_range_ range) {
    const uintptr_t page = (uintptr_t)sysconf(_SC_PAGESIZE), end = range.at + (uintptr_t)range.length;
    uintptr_t at = range.at - range.at % page;
    const int populate_read = 22; /* MADV_POPULATE_READ, since Linux 5.14 */
    int answer;
    do {
        answer = madvise((void *)at, end - at, populate_read);
    } while (answer != 0 && (errno == EINTR || errno == EAGAIN));
    if (answer == 0 || errno != EINVAL)
        return answer == 0;
    while (at < end && pmtrace_is_page_readable_(at))
        at += page;
    return at >= end;
}

/* The same of what a mapping has from one place of the trace to another, if it can be read. */
static void pmtrace_notice_part_(const pmtrace_mapping_ *mapping, uint64_t first, uint64_t end) {
    pmtrace_range_ part = pmtrace_part_(mapping->range, first, end);
    if (part.length > 0 && pmtrace_is_readable_(part))
        pmtrace_notice_(mapping->pool, part);
}

/* The same of the lines of a piece, before a call does something to them. Of a line that its mapping has a part of, others may have
 * the rest; a byte that two of them have is looked at once, or a store that comes in between is noted by halves. */
static void pmtrace_notice_lines_(pmtrace_range_ piece) {
    if (!pmtrace_.watching || pmtrace_.ended || piece.length == 0)
        return;
    const pmtrace_mapping_ *own = pmtrace_mapping_at_(piece.at);
    uint64_t first = piece.from - piece.from % pmtrace_.line_size, end = piece.from + piece.length + pmtrace_.line_size - 1;
    end -= end % pmtrace_.line_size;
    pmtrace_range_ lines = pmtrace_part_(own->range, first, end);
    pmtrace_notice_(own->pool, lines);
    for (unsigned number = 0; lines.length < end - first && number < pmtrace_.mapping_count; number++) {
        const pmtrace_mapping_ *mapping = &pmtrace_.mappings[number];
        pmtrace_notice_part_(mapping, first, lines.from);
        pmtrace_notice_part_(mapping, lines.from + lines.length, end);
    }
}

static void pmtrace_remove_mapping_(unsigned number) {
    pmtrace_.mappings[number] = pmtrace_.mappings[--pmtrace_.mapping_count];
    pmtrace_.last_mapping = 0;
}

/* A mapping is gone, of which nobody told: what was stored there since the last look is lost. */
static void pmtrace_lose_mapping_(unsigned number) {
    pmtrace_miss_("a watched pool was unmapped, protected or cut off without pmtrace_forget; plain stores since the last look "
                  "are not in the trace");
    pmtrace_remove_mapping_(number);
}

/* Looks at the pages of a mapping that changed, or at all of them. False where it is gone. */
static bool pmtrace_look_at_(const pmtrace_mapping_ *mapping) {
    pmtrace_range_ changed, left = mapping->range;
    while (mapping->tracked && pmtrace_next_changed_(&left, &changed)) {
        if (!pmtrace_is_readable_(changed))
            return false;
        pmtrace_notice_(mapping->pool, changed);
    }
    if (mapping->tracked && left.length == 0)
        return true;
    if (!pmtrace_is_readable_(mapping->range))
        return false;
    pmtrace_notice_(mapping->pool, mapping->range);
    return true;
}

/* Notes as stores what the program wrote to all pools without the recorder. */
static void pmtrace_look_(void) {
    unsigned number = 0;
    while (pmtrace_.watching && !pmtrace_.ended && number < pmtrace_.mapping_count) {
        if (pmtrace_look_at_(&pmtrace_.mappings[number]))
            number++;
        else
            pmtrace_lose_mapping_(number);
    }
}

/* Whether the word at an address, which was seen to differ, may have been stored to through a mapping of its pool. */
static bool pmtrace_is_told_(uint64_t from) {
    for (unsigned number = 0; number < pmtrace_.mapping_count; number++) {
        const pmtrace_mapping_ *mapping = &pmtrace_.mappings[number];
        uint64_t into = from - mapping->range.from;
        if (into < mapping->range.length && (!mapping->tracked || pmtrace_is_changed_(mapping->range.at + (uintptr_t)into)))
            return true;
    }
    return false;
}

/* Compares all of a mapping, and says how many words no page told of: they were written to by other means. */
static uint64_t pmtrace_compare_(const pmtrace_mapping_ *mapping) {
    const pmtrace_pool_ *pool = &pmtrace_.pools[mapping->pool];
    pmtrace_range_ left = mapping->range;
    uint64_t untold = 0;
    while (left.length > 0 && !pmtrace_.ended) {
        if (left.from % PMTRACE_WORD_BYTES_ == 0)
            left = pmtrace_rest_(left, pmtrace_same_(pool, left));
        pmtrace_range_ word = pmtrace_in_word_(left);
        uint64_t seen = pmtrace_.seen;
        if (word.length > 0)
            pmtrace_notice_word_(pool, word);
        untold += pmtrace_.seen > seen && !pmtrace_is_told_(word.from);
        left = pmtrace_rest_(left, word.length);
    }
    return untold;
}

/* The last look: at what the pages tell, and then at everything. */
static void pmtrace_look_last_(void) {
    uint64_t untold = 0;
    unsigned number = 0;
    pmtrace_look_();
    while (pmtrace_.watching && !pmtrace_.ended && number < pmtrace_.mapping_count) {
        const pmtrace_mapping_ *mapping = &pmtrace_.mappings[number];
        if (mapping->tracked && !pmtrace_is_readable_(mapping->range)) {
            pmtrace_lose_mapping_(number);
            continue;
        }
        if (mapping->tracked)
            untold += pmtrace_compare_(mapping);
        number++;
    }
    if (untold > 0)
        pmtrace_miss_("a watched pool was changed by other means than its mappings; this stands at the end of the trace "
                      "(PMTRACE_WATCH=all looks at everything each time)");
}

/* Makes the pool's copy as long as the pool. */
static bool pmtrace_make_copy_(pmtrace_pool_ *pool) {
    size_t length = (size_t)(pool->end - pool->from + 2 * PMTRACE_WORD_BYTES_);
    unsigned char *copy = (unsigned char *)realloc(pool->copy, length);
    if (copy != NULL)
        pool->copy = copy;
    return copy != NULL;
}

/* How many bytes of a range, from its first on, a mapping has that is watched already. */
static uint64_t pmtrace_watched_(pmtrace_range_ range) {
    for (unsigned number = 0; pmtrace_.watching && number < pmtrace_.mapping_count; number++) {
        pmtrace_range_ part = pmtrace_part_(pmtrace_.mappings[number].range, range.from, range.from + range.length);
        if (part.length > 0 && part.from == range.from)
            return part.length;
    }
    return 0;
}

/* Takes what stands in a mapping for what the trace makes of it, from here on. Of what another mapping shows the copy stays, since a
 * store through that one may not have been noticed yet. */
static void pmtrace_begin_to_watch_(pmtrace_mapping_ *mapping) {
    const pmtrace_pool_ *pool = &pmtrace_.pools[mapping->pool];
    mapping->tracked = pmtrace_track_(mapping->range);
    for (pmtrace_range_ left = mapping->range; left.length > 0;) {
        uint64_t watched = pmtrace_watched_(left);
        pmtrace_range_ word = pmtrace_in_word_(left);
        size_t into_word = (size_t)(word.from % PMTRACE_WORD_BYTES_);
        if (watched > 0) {
            left = pmtrace_rest_(left, watched);
            continue;
        }
        uint64_t now = pmtrace_load_(word.at - into_word);
        memcpy(pmtrace_copied_(pool, word.from), (const unsigned char *)&now + into_word, (size_t)word.length);
        left = pmtrace_rest_(left, word.length);
    }
}
