/* --- the files --- */

enum { PMTRACE_STEP_ = 1 << 20, PMTRACE_BUFFER_ = 1 << 16 };

/* Writes a buffer's whole lines to a file that is not mapped. What could not be written is left in the buffer. */
static bool pmtrace_write_(pmtrace_output_ *output) {
    size_t out = 0;
    bool fine = true;
    while (out < output->whole && fine) {
        ssize_t more = write(output->file, output->room + out, output->whole - out);
        if (more > 0)
            out += (size_t)more;
        else
            fine = more < 0 && errno == EINTR;
    }
    memmove(output->room, output->room + out, output->used - out);
    output->used -= out;
    output->whole -= out;
    return fine;
}

/* Asks for more room behind the lines of a mapped file: as much as there is. False with errno where there is none. */
static bool pmtrace_grow_(pmtrace_output_ *output) {
    size_t step = PMTRACE_STEP_;
    if (step > output->most - output->size)
        step = output->most - output->size;
    int error = step == 0 ? EFBIG : 0;
    for (; step > 0; step /= 2) {
        error = posix_fallocate(output->file, (off_t)output->size, (off_t)step);
        if (error == 0) {
            output->size += step;
            return true;
        }
        if (error != ENOSPC && error != EFBIG && error != EDQUOT && error != EINTR)
            break;
    }
    errno = error;
    return false;
}

/* Whether there is room for so many bytes more. */
static bool pmtrace_has_room_(pmtrace_output_ *output, size_t length) {
    while (output->size - output->used < length) {
        if (!(output->mapped ? pmtrace_grow_(output) : pmtrace_write_(output)))
            return false;
    }
    return true;
}

/* Ends a line, of which all bytes but the LF are put. Whoever kills the program meanwhile finds it whole or without its end. */
static void pmtrace_put_end_(pmtrace_output_ *output, char *end) {
    __atomic_store_n(end, '\n', __ATOMIC_RELEASE);
    output->used = (size_t)(end - output->room) + 1;
    __atomic_store_n(&output->whole, output->used, __ATOMIC_RELEASE);
}

/* Cuts the file behind its last whole line. Signal handlers may call it. */
static bool pmtrace_cut_(const pmtrace_output_ *output) {
    int done = 0;
    if (output->mapped) {
        size_t whole = __atomic_load_n(&output->whole, __ATOMIC_ACQUIRE);
        do {
            done = ftruncate(output->file, (off_t)whole);
        } while (done != 0 && errno == EINTR);
    }
    return done == 0;
}

/* Cuts the file to its text, until more is put. */
static void pmtrace_trim_(pmtrace_output_ *output) {
    if (output->mapped && pmtrace_cut_(output))
        output->size = output->used;
}

/* Ends the file behind its last whole line. A call that a jump left may yet go on putting: its bytes then go nowhere. */
static bool pmtrace_finish_file_(pmtrace_output_ *output) {
    bool fine = output->mapped ? pmtrace_cut_(output) : pmtrace_write_(output);
    int error = errno;
    if (output->mapped && !pmtrace_is_(&pmtrace_broken_))
        munmap(output->room, output->most);
    else if (output->mapped)
        fine = mmap(output->room, output->most, PROT_READ | PROT_WRITE, MAP_PRIVATE | MAP_ANONYMOUS | MAP_FIXED | MAP_NORESERVE,
                    -1, 0) != MAP_FAILED &&
               fine;
    else
        free(output->room);
    if (close(output->file) != 0 && fine) {
        error = errno;
        fine = false;
    }
    output->room = NULL;
    errno = error;
    return fine;
}

/* In a child: the file is the parent's. */
static void pmtrace_drop_file_(pmtrace_output_ *output) {
    if (output->mapped)
        munmap(output->room, output->most);
    else
        free(output->room);
    close(output->file);
    output->room = NULL;
}

/* Opens the file for a new text, unless another process writes one there. */
static int pmtrace_open_file_(const char *path) {
    struct stat status;
    bool regular = stat(path, &status) != 0 || S_ISREG(status.st_mode);
    int file = open(path, regular ? O_RDWR | O_CREAT | O_CLOEXEC : O_WRONLY | O_CLOEXEC, 0666);
    if (file >= 0 && regular && ((flock(file, LOCK_EX | LOCK_NB) != 0 && errno == EWOULDBLOCK) || ftruncate(file, 0) != 0)) {
        int error = errno;
        close(file);
        errno = error;
        return -1;
    }
    return file;
}

/* Makes the room of an opened file: it is mapped where that can be. */
static bool pmtrace_make_room_(pmtrace_output_ *output, size_t most) {
    void *room = MAP_FAILED;
    output->used = output->whole = output->size = 0;
    output->most = most;
    output->mapped = posix_fallocate(output->file, 0, 1) == 0;
    if (output->mapped) {
        output->size = 1;
        room = mmap(NULL, most, PROT_READ | PROT_WRITE, MAP_SHARED, output->file, 0);
        output->mapped = room != MAP_FAILED;
        output->room = (char *)room;
    }
    if (!output->mapped) {
        output->room = (char *)malloc(PMTRACE_BUFFER_);
        output->size = PMTRACE_BUFFER_;
    }
    return output->room != NULL;
}

/* Makes the file NAME and its ending, for at most so many bytes. What goes wrong is told. */
static bool pmtrace_make_(pmtrace_output_ *output, const char *name, const char *ending, size_t most) {
    size_t size = strlen(name) + strlen(ending) + 1;
    char *path = (char *)malloc(size);
    output->file = -1;
    if (path != NULL) {
        snprintf(path, size, "%s%s", name, ending);
        output->file = pmtrace_open_file_(path);
    }
    bool made = output->file >= 0 && pmtrace_make_room_(output, most);
    if (!made) {
        const char *why = errno == EWOULDBLOCK ? "another recorder has it open" : strerror(errno);
        pmtrace_tell_("%s%s: %s; nothing is recorded", name, ending, why);
    }
    if (!made && output->file >= 0)
        close(output->file);
    free(path);
    return made;
}
