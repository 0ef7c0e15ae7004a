/* --- the window --- */

/* While the window is closed nothing is put. What happens to lines is followed in a table, so that at the start of the window those
 * that are not safe can be put. */

enum { PMTRACE_SAFE_ = 0xffff, PMTRACE_FIRST_LINES_ = 1024 };

/* The place in the table where the line is, or belongs. */
static pmtrace_line_ *pmtrace_find_line_(uint64_t address) {
    size_t at = (size_t)(address / pmtrace_.line_size * UINT64_C(0x9e3779b97f4a7c15) >> 20) & (pmtrace_.line_room - 1);
    while (pmtrace_.lines[at].used && pmtrace_.lines[at].address != address)
        at = (at + 1) & (pmtrace_.line_room - 1);
    return &pmtrace_.lines[at];
}

/* Makes room for one line more. */
static bool pmtrace_make_line_room_(void) {
    size_t room = pmtrace_.line_room, more = room == 0 ? (size_t)PMTRACE_FIRST_LINES_ : 2 * room;
    pmtrace_line_ *lines = pmtrace_.lines;
    if (2 * (pmtrace_.line_count + 1) <= room)
        return true;
    pmtrace_.lines = (pmtrace_line_ *)calloc(more, sizeof *lines);
    if (pmtrace_.lines == NULL) {
        pmtrace_.lines = lines;
        pmtrace_end_("there is no memory for what happens outside the window");
        return false;
    }
    pmtrace_.line_room = more;
    for (size_t at = 0; at < room; at++) {
        if (lines[at].used)
            *pmtrace_find_line_(lines[at].address) = lines[at];
    }
    free(lines);
    return true;
}

static void pmtrace_forget_lines_(void) {
    free(pmtrace_.lines);
    pmtrace_.lines = NULL;
    pmtrace_.line_room = pmtrace_.line_count = 0;
}

static bool pmtrace_is_safe_(const pmtrace_line_ *line) {
    return line->flusher == PMTRACE_SAFE_ || (line->flusher != 0 && pmtrace_.threads[line->flusher - 1].fences > line->fences);
}

/* The line that begins at the address was stored to. */
static void pmtrace_follow_store_(uint64_t address) {
    if (pmtrace_.ended || !pmtrace_make_line_room_())
        return;
    pmtrace_line_ *line = pmtrace_find_line_(address);
    if (!line->used) {
        line->used = true;
        line->address = address;
        pmtrace_.line_count++;
    }
    line->flusher = 0;
}

/* The calling thread flushed it. */
static void pmtrace_follow_flush_(pmtrace_flush_kind kind, uint64_t address) {
    if (pmtrace_.ended || pmtrace_.line_count == 0)
        return;
    pmtrace_line_ *line = pmtrace_find_line_(address);
    if (!line->used || pmtrace_is_safe_(line))
        return;
    line->flusher = kind == PMTRACE_CLFLUSH ? (unsigned short)PMTRACE_SAFE_ : (unsigned short)(pmtrace_number_ + 1);
    line->fences = pmtrace_.threads[pmtrace_number_].fences;
}

static int pmtrace_compare_lines_(const void *one, const void *other) {
    uint64_t first = ((const pmtrace_line_ *)one)->address, second = ((const pmtrace_line_ *)other)->address;
    return first < second ? -1 : first > second;
}

/* Leaves in the table the lines to be put, by rising address, and says how many: those that are not safe, and where the trace has
 * stores already those that were made safe too, since a claim may be about the order of both. */
static size_t pmtrace_gather_lines_(void) {
    size_t count = 0;
    for (size_t at = 0; at < pmtrace_.line_room; at++) {
        if (pmtrace_.lines[at].used && (pmtrace_.stored || !pmtrace_is_safe_(&pmtrace_.lines[at])))
            pmtrace_.lines[count++] = pmtrace_.lines[at];
    }
    if (count > 0)
        qsort(pmtrace_.lines, count, sizeof *pmtrace_.lines, pmtrace_compare_lines_);
    return count;
}
