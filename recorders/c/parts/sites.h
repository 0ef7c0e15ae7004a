/* --- the functions of lines --- */

/* How many lines have room, and among how many of them one is looked for. */
enum { PMTRACE_MOST_SITES_ = 1 << 13, PMTRACE_MOST_TRIES_ = 32 };

/* The text of a line as PMTRACE_HERE has it, by whose address it is found, and the function that the line stands in. */
typedef struct pmtrace_site_ {
    const char *line, *function;
} pmtrace_site_;

/* Any thread adds to them, without the lock. They stay; without room a function is not known. */
static pmtrace_site_ pmtrace_sites_[PMTRACE_MOST_SITES_];

/* Where the line stands or is to stand; NULL without room. */
static pmtrace_site_ *pmtrace_site_of_(const char *line) {
    uintptr_t first = (uintptr_t)line ^ (uintptr_t)line / PMTRACE_MOST_SITES_;
    for (unsigned tried = 0; tried < PMTRACE_MOST_TRIES_; tried++) {
        pmtrace_site_ *site = &pmtrace_sites_[(first + tried) % PMTRACE_MOST_SITES_];
        const char *there = __atomic_load_n(&site->line, __ATOMIC_RELAXED);
        if (there == line || there == NULL)
            return site;
    }
    return NULL;
}

/* Whether the line stands there, where it gets the room if that is free. */
static bool pmtrace_take_site_(pmtrace_site_ *site, const char *line) {
    const char *there = __atomic_load_n(&site->line, __ATOMIC_RELAXED);
    bool taken = there == NULL && __atomic_compare_exchange_n(&site->line, &there, line, false, __ATOMIC_RELAXED, __ATOMIC_RELAXED);
    return taken || there == line;
}

const char *pmtrace_in_(const char *line, const char *function) {
    pmtrace_site_ *site = pmtrace_site_of_(line);
    while (site != NULL && !pmtrace_take_site_(site, line))
        site = pmtrace_site_of_(line);
    if (site != NULL && __atomic_load_n(&site->function, __ATOMIC_RELAXED) != function)
        __atomic_store_n(&site->function, function, __ATOMIC_RELAXED);
    return line;
}

/* The function that a label's line stands in; NULL of a label that is no such line. */
static const char *pmtrace_function_of_(const char *label) {
    const pmtrace_site_ *site = pmtrace_site_of_(label);
    bool known = site != NULL && __atomic_load_n(&site->line, __ATOMIC_RELAXED) == label;
    return known ? __atomic_load_n(&site->function, __ATOMIC_RELAXED) : NULL;
}
