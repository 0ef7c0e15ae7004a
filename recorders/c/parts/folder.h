/* --- a folder of traces: where the environment's PMTRACE_FOLDER names one, each process has its own there --- */

enum { PMTRACE_FOLDER_PATH_ = 4200, PMTRACE_HOW_BYTES_ = 32 };

/* The file TRACE.process of this process: a line of 32 bytes that says how it ended, and then the words of its command line, each with
 * a zero byte behind it. The name is whole, so that it holds wherever the program goes, and when a signal ends it. */
static char pmtrace_process_path_[PMTRACE_FOLDER_PATH_];
static pid_t pmtrace_process_;

/* Writes how the process ended: a word, as "status ", and a number. Signal handlers may call it. */
static void pmtrace_write_how_(const char *word, unsigned number) {
    char line[PMTRACE_HOW_BYTES_], digits[16];
    size_t length = strlen(word), count = 0;
    if (pmtrace_process_ == 0 || pmtrace_process_ != getpid())
        return;
    memset(line, ' ', sizeof line);
    memcpy(line, word, length);
    do {
        digits[count++] = (char)('0' + number % 10);
        number /= 10;
    } while (number > 0);
    while (count > 0)
        line[length++] = digits[--count];
    line[sizeof line - 1] = '\n';
    int file = open(pmtrace_process_path_, O_WRONLY | O_CLOEXEC);
    if (file >= 0) {
        if (pwrite(file, line, sizeof line, 0) < 0)
            errno = EIO;
        close(file);
    }
}

/* The C library tells the status to functions that were given to on_exit, for good: so not to those of a library that may be unloaded. */
#if defined __GLIBC__ && (!defined __PIC__ || defined __PIE__)
static void pmtrace_on_exit_(int status, void *nothing) {
    (void)nothing;
    pmtrace_write_how_("status ", (unsigned)status & 0xff);
}

static void pmtrace_wait_for_exit_(void) {
    static bool waits;
    if (!waits)
        on_exit(pmtrace_on_exit_, NULL);
    waits = true;
}
#else
static void pmtrace_wait_for_exit_(void) {
}
#endif

/* Writes the words of the command line, behind the line of an end that is not known yet. */
static bool pmtrace_write_words_(int to) {
    char piece[4096];
    int from = open("/proc/self/cmdline", O_RDONLY | O_CLOEXEC);
    bool fine = from >= 0 && dprintf(to, "%-*s\n", PMTRACE_HOW_BYTES_ - 1, "running") == PMTRACE_HOW_BYTES_;
    ssize_t length = 0;
    while (fine && (length = read(from, piece, sizeof piece)) > 0)
        fine = write(to, piece, (size_t)length) == length;
    if (from >= 0)
        close(from);
    return fine && length == 0;
}

/* Begins the file TRACE.process. */
static void pmtrace_begin_process_(const char *trace) {
    snprintf(pmtrace_process_path_, sizeof pmtrace_process_path_, "%s.process", trace);
    int file = open(pmtrace_process_path_, O_WRONLY | O_CREAT | O_TRUNC | O_CLOEXEC, 0666);
    if (file < 0 || !pmtrace_write_words_(file))
        pmtrace_tell_("%s: %s", pmtrace_process_path_, strerror(errno));
    if (file >= 0)
        close(file);
    pmtrace_process_ = getpid();
    pmtrace_wait_for_exit_();
}

/* Where the trace of this name goes: to the file itself, or FOLDER/NAME.PID, and FOLDER/NAME.PID.2 where that is there already. NULL
 * where there is no memory, or where the folder can't be taken. */
static char *pmtrace_trace_path_(const char *file) {
    const char *folder = getenv("PMTRACE_FOLDER"), *slash = strrchr(file, '/'), *name = slash != NULL ? slash + 1 : file;
    struct stat status;
    if (folder == NULL || *folder == '\0')
        return strdup(file);
    size_t size = strlen(folder) + strlen(name) + 64;
    char *path = *folder == '/' && size < PMTRACE_FOLDER_PATH_ - 16 ? (char *)malloc(size) : NULL;
    if (path == NULL) {
        pmtrace_tell_("%s: PMTRACE_FOLDER=%s is no whole name of a folder; nothing is recorded", file, folder);
        return NULL;
    }
    snprintf(path, size, "%s/%s.%ld", folder, name, (long)getpid());
    for (unsigned number = 2; lstat(path, &status) == 0; number++)
        snprintf(path, size, "%s/%s.%ld.%u", folder, name, (long)getpid(), number);
    pmtrace_begin_process_(path);
    return path;
}
