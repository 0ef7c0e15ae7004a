/* --- telling --- */

__attribute__((format(printf, 1, 2))) static void pmtrace_tell_(const char *format, ...) {
    va_list values;
    char text[1024];
    va_start(values, format);
    vsnprintf(text, sizeof text, format, values);
    va_end(values);
    fprintf(stderr, "pmtrace: %s\n", text);
}

/* Beside a trace that is not all of what happened stands FILE.cut: one line, the number of the last event and why no more are there.
 * Where the disk is full it may be empty. */

static const char pmtrace_cut_ending_[] = ".cut";

/* Names the file, wherever the program goes from its folder, and removes that of an earlier trace. */
static bool pmtrace_begin_cut_(void) {
    char *folder = *pmtrace_.name == '/' ? NULL : getcwd(NULL, 0);
    const char *before = folder != NULL ? folder : "", *between = folder != NULL ? "/" : "";
    size_t size = strlen(before) + 1 + strlen(pmtrace_.name) + sizeof pmtrace_cut_ending_;
    free(pmtrace_.cut_name);
    pmtrace_.cut_name = (char *)malloc(size);
    if (pmtrace_.cut_name != NULL) {
        snprintf(pmtrace_.cut_name, size, "%s%s%s%s", before, between, pmtrace_.name, pmtrace_cut_ending_);
        unlink(pmtrace_.cut_name);
    }
    free(folder);
    return pmtrace_.cut_name != NULL;
}

/* Whether the trace is a file that others can stand beside, and no device. */
static bool pmtrace_is_in_folder_(void) {
    struct stat status;
    size_t length = strlen(pmtrace_.cut_name) + 1 - sizeof pmtrace_cut_ending_;
    pmtrace_.cut_name[length] = '\0';
    bool found = stat(pmtrace_.cut_name, &status) == 0 && S_ISREG(status.st_mode);
    pmtrace_.cut_name[length] = *pmtrace_cut_ending_;
    return found;
}

static void pmtrace_write_cut_(const char *why) {
    if (!pmtrace_is_in_folder_())
        return;
    int file = open(pmtrace_.cut_name, O_WRONLY | O_CREAT | O_TRUNC | O_CLOEXEC, 0666);
    if (file < 0 || dprintf(file, "%llu %s\n", (unsigned long long)pmtrace_.events, why) < 0)
        pmtrace_tell_("%s: %s", pmtrace_.cut_name, strerror(errno));
    if (file >= 0)
        close(file);
}

/* Nothing more is noted, which is told once. */
static void pmtrace_end_(const char *why) {
    if (!pmtrace_.ended) {
        pmtrace_tell_("%s: the trace ends after event %llu: %s", pmtrace_.name, (unsigned long long)pmtrace_.events, why);
        pmtrace_write_cut_(why);
    }
    pmtrace_.ended = true;
}

/* Something is not in the trace that goes on. */
static void pmtrace_miss_(const char *what) {
    pmtrace_tell_("%s: %s", pmtrace_.name, what);
    pmtrace_.incomplete = true;
}
