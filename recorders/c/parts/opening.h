/* --- opening and closing --- */

/* A number that the environment names, or this one. What is no number is refused. */
static bool pmtrace_read_number_(const char *name, uint64_t *number) {
    const char *text = getenv(name);
    char *end;
    if (text == NULL || *text == '\0')
        return true;
    errno = 0;
    unsigned long long read = strtoull(text, &end, 10);
    if (errno != 0 || *end != '\0' || *text < '0' || *text > '9') {
        pmtrace_tell_("%s=%s is no number of events; nothing is recorded", name, text);
        return false;
    }
    *number = read;
    return true;
}

/* Writes the header of a new trace. */
static bool pmtrace_write_header_(unsigned line_size) {
    pmtrace_output_ *trace = &pmtrace_.trace;
    bool done = pmtrace_has_room_(trace, PMTRACE_LONGEST_LINE_);
    if (done) {
        pmtrace_put_end_(trace, pmtrace_put_number_(pmtrace_put_text_(trace->room, "pmtrace 2 "), line_size));
        done = trace->mapped || pmtrace_write_(trace);
    }
    if (!done)
        pmtrace_tell_("%s: %s; nothing is recorded", pmtrace_.name, strerror(errno));
    return done;
}

/* Whether the environment asks for something by this name. */
static bool pmtrace_is_wanted_(const char *name) {
    const char *wanted = getenv(name);
    return wanted != NULL && *wanted != '\0' && strcmp(wanted, "0") != 0;
}

/* Makes the trace with its header and, where there are labels, their file. The environment's PMTRACE_WHOLE lets the trace have more events
 * than pmtrim reads at once. */
static bool pmtrace_make_files_(unsigned line_size, bool labeled) {
    bool whole = pmtrace_is_wanted_("PMTRACE_WHOLE");
    const size_t most_text = whole ? (size_t)1 << 34 : 1 << 26;
    const size_t most_labels = whole ? (size_t)1 << 35 : (size_t)PMTRACE_MOST_EVENTS_ * (PMTRACE_MOST_LABEL_ + 16);
    pmtrace_.most_events = whole ? UINT64_MAX : (uint64_t)PMTRACE_MOST_EVENTS_;
    if (!pmtrace_make_(&pmtrace_.trace, pmtrace_.name, "", most_text))
        return false;
    if (pmtrace_write_header_(line_size) && (!labeled || pmtrace_make_(&pmtrace_.labels, pmtrace_.name, ".labels", most_labels)))
        return true;
    pmtrace_finish_file_(&pmtrace_.trace);
    return false;
}

/* Forgets the trace that was open last, but for its name where later calls are to be told of. */
static void pmtrace_reset_(void) {
    pmtrace_free_pools_();
    free(pmtrace_.mappings);
    free(pmtrace_.based);
    pmtrace_forget_lines_();
    pmtrace_forget_ages_();
    pmtrace_.aging = false;
    pmtrace_.mappings = NULL;
    pmtrace_.based = NULL;
    pmtrace_.based_count = 0;
    pmtrace_.mapping_count = pmtrace_.last_mapping = 0;
    pmtrace_.watching = false;
}

/* A page that children share, to count there what they do, and one by which they know that they are children. */
static void pmtrace_set_up_processes_(void) {
    const int wipe_on_fork = 18; /* MADV_WIPEONFORK, since Linux 4.14 */
    if (pmtrace_children_ == NULL || pmtrace_get_state_() == PMTRACE_FORKED_) {
        void *shared = mmap(NULL, sizeof *pmtrace_children_, PROT_READ | PROT_WRITE, MAP_SHARED | MAP_ANONYMOUS, -1, 0);
        pmtrace_children_ = shared != MAP_FAILED ? (uint64_t *)shared : NULL;
    }
    if (pmtrace_children_ != NULL)
        __atomic_store_n(pmtrace_children_, 0, __ATOMIC_SEQ_CST);
    if (pmtrace_here_ == NULL) {
        void *own = mmap(NULL, sizeof *pmtrace_here_, PROT_READ | PROT_WRITE, MAP_PRIVATE | MAP_ANONYMOUS, -1, 0);
        pmtrace_here_ = own != MAP_FAILED ? (int *)own : NULL;
        if (own != MAP_FAILED)
            (void)madvise(own, sizeof *pmtrace_here_, wipe_on_fork);
    }
    if (pmtrace_here_ != NULL)
        __atomic_store_n(pmtrace_here_, 1, __ATOMIC_SEQ_CST);
}

/* What a new trace begins with. */
static void pmtrace_set_up_(unsigned line_size, bool labeled) {
    const char *watch = getenv("PMTRACE_WATCH");
    pmtrace_reset_();
    pmtrace_.line_size = line_size;
    pmtrace_.labeled = labeled;
    pmtrace_.look_at_all = watch != NULL && strcmp(watch, "all") == 0;
    pmtrace_.ended = pmtrace_.incomplete = pmtrace_.stored = false;
    pmtrace_.opened++;
    pmtrace_.events = pmtrace_.seen = pmtrace_.missing = pmtrace_.outside = pmtrace_.aside = 0;
    pmtrace_.window_number = 1;
    pmtrace_.fault_file = pmtrace_.pages_file = -1;
    memset(pmtrace_.threads, 0, sizeof pmtrace_.threads);
    __atomic_store_n(&pmtrace_lost_, 0, __ATOMIC_RELAXED);
    pmtrace_set_up_processes_();
    pmtrace_prepare_();
}

/* The environment's PMTRACE_BASE asks for bases. Those of an earlier trace of this name go in any case. */
static void pmtrace_set_up_bases_(void) {
    pmtrace_remove_bases_();
    pmtrace_.basing = pmtrace_is_wanted_("PMTRACE_BASE");
}

/* Begins a trace without pools. */
static bool pmtrace_begin_trace_(const char *label, const char *file, unsigned line_size) {
    uint64_t start = 0, stop = UINT64_MAX;
    if (line_size != 32 && line_size != 64 && line_size != 128 && line_size != 256) {
        pmtrace_tell_("%s: a line has 32, 64, 128 or 256 bytes; nothing is recorded", file);
        return false;
    }
    if (!pmtrace_read_number_("PMTRACE_START", &start) || !pmtrace_read_number_("PMTRACE_STOP", &stop))
        return false;
    free(pmtrace_.name);
    free(pmtrace_.asked);
    pmtrace_.name = pmtrace_trace_path_(file);
    pmtrace_.asked = strdup(file);
    if (pmtrace_.name == NULL || pmtrace_.asked == NULL || !pmtrace_begin_cut_() || !pmtrace_make_files_(line_size, label != NULL))
        return false;
    pmtrace_set_up_(line_size, label != NULL);
    pmtrace_set_up_bases_();
    pmtrace_.window = start == 0;
    if (!pmtrace_.window)
        pmtrace_begin_aging_();
    pmtrace_.start_at = start == 0 ? UINT64_MAX : start;
    pmtrace_.stop_at = stop;
    return true;
}

static void pmtrace_close_files_(void) {
    if (!pmtrace_finish_file_(&pmtrace_.trace))
        pmtrace_end_(strerror(errno));
    if (pmtrace_.labeled && !pmtrace_finish_file_(&pmtrace_.labels))
        pmtrace_tell_("%s.labels: %s", pmtrace_.name, strerror(errno));
}

/* Adds a pool to the trace that is open. */
static int pmtrace_open_more_(const char *file, const void *base, size_t length, unsigned line_size) {
    const char *refusal = NULL;
    if (file != NULL && strcmp(file, pmtrace_.asked) != 0) {
        pmtrace_tell_("%s: another trace is open: %s; nothing is recorded here", file, pmtrace_.asked);
        return -1;
    }
    if (line_size != pmtrace_.line_size)
        refusal = "the trace has lines of another size";
    if (refusal == NULL)
        refusal = pmtrace_begin_pool_(base, length);
    if (refusal != NULL) {
        pmtrace_tell_("%s: %s; the %zu bytes at %p are not recorded", pmtrace_.name, refusal, length, base);
        pmtrace_.incomplete = true;
    }
    return refusal == NULL ? 0 : -1;
}

static int pmtrace_open_first_(const char *label, const char *file, const void *base, size_t length, unsigned line_size) {
    int state = pmtrace_get_state_();
    if (state == PMTRACE_FORKED_)
        pmtrace_pass_(state, base, length);
    if (file == NULL || base == NULL || length == 0 || length > UINTPTR_MAX - (uintptr_t)base) {
        pmtrace_tell_("%s: %s; nothing is recorded", file != NULL ? file : "pmtrace_open",
                      file != NULL ? "there is no such pool" : "no trace is open");
        return -1;
    }
    if (!pmtrace_begin_trace_(label, file, line_size))
        return -1;
    const char *refusal = pmtrace_begin_pool_(base, length);
    if (refusal != NULL) {
        pmtrace_tell_("%s: %s; nothing is recorded", file, refusal);
        pmtrace_close_files_();
        pmtrace_reset_();
        __atomic_store_n(&pmtrace_state_, PMTRACE_CLOSED_, __ATOMIC_RELEASE);
        return -1;
    }
    __atomic_store_n(&pmtrace_state_, PMTRACE_OPEN_, __ATOMIC_RELEASE);
    return 0;
}

int pmtrace_open_at(const char *label, const char *file, const void *base, size_t length, unsigned line_size) {
    if (pmtrace_get_state_() == PMTRACE_FORKED_ && __atomic_load_n(&pmtrace_state_, __ATOMIC_SEQ_CST) == PMTRACE_OPEN_)
        pmtrace_come_to_();
    if (!pmtrace_take_()) {
        pmtrace_tell_("%s: a call never returned; nothing is recorded", file != NULL ? file : "pmtrace_open");
        return -1;
    }
    pmtrace_.label = label;
    int answer = pmtrace_get_state_() == PMTRACE_OPEN_ ? pmtrace_open_more_(file, base, length, line_size)
                                                       : pmtrace_open_first_(label, file, base, length, line_size);
    pmtrace_give_();
    return answer;
}

int pmtrace_forget_at(const char *label, const void *start, size_t length) {
    uintptr_t at = (uintptr_t)start;
    if (!pmtrace_enter_(label, NULL, 0))
        return -1;
    bool known = length > 0 && length <= UINTPTR_MAX - at && pmtrace_overlapping_(at, length) != NULL;
    if (known) {
        pmtrace_look_last_();
        pmtrace_unmap_(at, length);
    }
    if (pmtrace_.mapping_count == 0) {
        pmtrace_trim_(&pmtrace_.trace);
        if (pmtrace_.labeled)
            pmtrace_trim_(&pmtrace_.labels);
    }
    pmtrace_leave_();
    return known ? 0 : -1;
}

bool pmtrace_records(const void *start, size_t length) {
    uintptr_t at = (uintptr_t)start;
    if (!pmtrace_enter_(NULL, NULL, 0))
        return false;
    bool all = length <= UINTPTR_MAX - at;
    size_t done = 0;
    while (all && done < length) {
        const pmtrace_mapping_ *mapping = pmtrace_mapping_at_(at + done);
        if (mapping != NULL)
            done += mapping->range.length - (at + done - mapping->range.at);
        else
            all = pmtrace_add_alias_(at + done, 1);
    }
    pmtrace_leave_();
    return all;
}

/* Tells what is not in the trace, and answers whether something is not. */
static bool pmtrace_tell_missing_(void) {
    uint64_t children = pmtrace_children_ != NULL ? __atomic_load_n(pmtrace_children_, __ATOMIC_SEQ_CST) : 0;
    uint64_t lost = __atomic_load_n(&pmtrace_lost_, __ATOMIC_RELAXED);
    if (pmtrace_.missing > 0)
        pmtrace_tell_("%s: %llu later events are not in the trace", pmtrace_.name, (unsigned long long)pmtrace_.missing);
    if (lost > 0)
        pmtrace_tell_("%s: %llu later calls are not in the trace", pmtrace_.name, (unsigned long long)lost);
    if (pmtrace_.outside > 0)
        pmtrace_tell_("%s: %llu calls reached outside the pool%s", pmtrace_.name, (unsigned long long)pmtrace_.outside,
                      pmtrace_.pool_count > 1 ? "s" : "");
    if (pmtrace_.aside > 0)
        pmtrace_tell_("%s: %llu claims of order about what was stored last before the window are not in the trace", pmtrace_.name,
                      (unsigned long long)pmtrace_.aside);
    if (children > 0)
        pmtrace_tell_("%s: %llu calls of children that fork made reached the pool and are not in the trace", pmtrace_.name,
                      (unsigned long long)children);
    return pmtrace_.ended || pmtrace_.incomplete || lost > 0 || pmtrace_.outside > 0 || pmtrace_.aside > 0 || children > 0;
}

/* A trace that ended as it should, and has no event, or not what came after its window: says so beside it. */
static void pmtrace_say_cut_(void) {
    if (pmtrace_.ended)
        return;
    if (pmtrace_.events == 0)
        pmtrace_write_cut_(pmtrace_.seen > 0 ? "no event came while the window was open" : "no event came");
    else if (!pmtrace_.window && pmtrace_.seen > pmtrace_.closed_at)
        pmtrace_write_cut_("the window was closed here, and events came after it");
}

/* The last line: where the trace is, and what to type next. PMTRACE_QUIET in the environment silences it; in a folder of traces, which
 * others read, there is none. */
static void pmtrace_tell_end_(void) {
    const char *name = pmtrace_.name;
    if (pmtrace_is_wanted_("PMTRACE_QUIET") || pmtrace_is_wanted_("PMTRACE_FOLDER"))
        return;
    pmtrace_tell_("%llu event%s in %s; next: pmtrim explain%s%s%s %s", (unsigned long long)pmtrace_.events, pmtrace_.events == 1 ? "" : "s",
                  name, pmtrace_.labeled ? " --labels " : "", pmtrace_.labeled ? name : "", pmtrace_.labeled ? ".labels" : "", name);
}

/* Ends the trace. Where a call never gave the lock back the first who comes does it without. */
static int pmtrace_end_trace_(const char *label, int state) {
    int open = PMTRACE_OPEN_;
    if (pmtrace_get_state_() != open)
        return -1;
    bool entered = pmtrace_enter_(label, NULL, 0);
    if (!entered && !pmtrace_is_(&pmtrace_broken_))
        return -1;
    if (entered) {
        pmtrace_look_last_();
        pmtrace_write_all_();
    } else {
        __atomic_fetch_sub(&pmtrace_lost_, 1, __ATOMIC_RELAXED); /* this call */
    }
    if (!__atomic_compare_exchange_n(&pmtrace_state_, &open, state, false, __ATOMIC_SEQ_CST, __ATOMIC_SEQ_CST)) {
        if (entered)
            pmtrace_give_();
        return -1;
    }
    pmtrace_close_files_();
    pmtrace_say_cut_();
    bool missing = pmtrace_tell_missing_();
    pmtrace_tell_end_();
    if (entered) {
        pmtrace_stop_tracking_();
        pmtrace_reset_();
        pmtrace_give_();
    }
    return missing ? -1 : 0;
}

int pmtrace_close_at(const char *label) {
    return pmtrace_end_trace_(label, PMTRACE_CLOSED_);
}

int pmtrace_watch_at(const char *label) {
    if (!pmtrace_enter_(label, NULL, 0))
        return -1;
    bool made = true;
    for (unsigned number = 0; made && !pmtrace_.watching && number < pmtrace_.pool_count; number++)
        made = pmtrace_make_copy_(&pmtrace_.pools[number]);
    for (unsigned number = 0; made && !pmtrace_.watching && number < pmtrace_.mapping_count; number++)
        pmtrace_begin_to_watch_(&pmtrace_.mappings[number]);
    if (made)
        pmtrace_.watching = true;
    else
        pmtrace_miss_("there is no memory for a copy of the pool; it is not watched");
    pmtrace_leave_();
    return made ? 0 : -1;
}

int pmtrace_start_at(const char *label) {
    if (!pmtrace_enter_(label, NULL, 0))
        return -1;
    pmtrace_open_window_();
    pmtrace_leave_();
    return 0;
}

int pmtrace_stop_at(const char *label) {
    if (!pmtrace_enter_(label, NULL, 0))
        return -1;
    pmtrace_close_window_();
    pmtrace_leave_();
    return 0;
}
