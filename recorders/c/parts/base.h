/* --- the bases: what stands in the pools when recording begins, for images of crashes --- */

enum { PMTRACE_BASE_PIECE_ = 1 << 16, PMTRACE_BASE_PATH_ = 4200 };

/* The file FILE.KIND of the first pool, FILE.KIND2 of the second one, and so on. */
static void pmtrace_name_base_(char path[PMTRACE_BASE_PATH_], const char *kind, unsigned pool) {
    if (pool == 0)
        snprintf(path, PMTRACE_BASE_PATH_, "%s.%s", pmtrace_.name, kind);
    else
        snprintf(path, PMTRACE_BASE_PATH_, "%s.%s%u", pmtrace_.name, kind, pool + 1);
}

/* Removes the bases that stand beside the trace: they are of another one, or no longer right. */
static void pmtrace_remove_bases_(void) {
    char base[PMTRACE_BASE_PATH_], origin[PMTRACE_BASE_PATH_];
    bool removed = true;
    for (unsigned pool = 0; removed; pool++) {
        pmtrace_name_base_(base, "base", pool);
        pmtrace_name_base_(origin, "origin", pool);
        bool base_removed = unlink(base) == 0, origin_removed = unlink(origin) == 0;
        removed = base_removed || origin_removed;
    }
    free(pmtrace_.based);
    pmtrace_.based = NULL;
    pmtrace_.based_count = 0;
}

/* From here on there is no base, which is told. */
static void pmtrace_lose_bases_(unsigned pool, const char *why) {
    char path[PMTRACE_BASE_PATH_];
    pmtrace_name_base_(path, "base", pool);
    pmtrace_tell_("%s: %s; there is no base beside the trace", path, why);
    pmtrace_remove_bases_();
    pmtrace_.basing = false;
    pmtrace_.incomplete = true;
}

static bool pmtrace_write_base_at_(int file, const char *bytes, size_t length, uint64_t offset) {
    size_t done = 0;
    while (done < length) {
        ssize_t more = pwrite(file, bytes + done, length - done, (off_t)(offset + done));
        if (more <= 0 && errno != EINTR)
            return false;
        done += more > 0 ? (size_t)more : 0;
    }
    return true;
}

/* Copies a piece of a pool to its base; a piece of zeros only is left to be a hole. */
static bool pmtrace_copy_to_base_(int file, pmtrace_range_ piece, uint64_t offset) {
    static const char zeros[PMTRACE_BASE_PIECE_] = {0};
    if (!pmtrace_is_readable_(piece)) {
        errno = EFAULT;
        return false;
    }
    const char *bytes = (const char *)piece.at;
    return memcmp(bytes, zeros, (size_t)piece.length) == 0 || pmtrace_write_base_at_(file, bytes, (size_t)piece.length, offset);
}

/* Makes the base long enough for the range, and copies it there piece by piece. */
static bool pmtrace_fill_base_(int file, const pmtrace_pool_ *pool, pmtrace_range_ range) {
    struct stat status;
    off_t end = (off_t)(range.from + range.length - pool->from);
    bool done = fstat(file, &status) == 0 && (status.st_size >= end || ftruncate(file, end) == 0);
    while (done && range.length > 0) {
        pmtrace_range_ piece = pmtrace_piece_(range, PMTRACE_BASE_PIECE_);
        done = pmtrace_copy_to_base_(file, piece, piece.from - pool->from);
        range = pmtrace_rest_(range, piece.length);
    }
    return done;
}

/* Writes one line: the pool's first address in the trace. */
static bool pmtrace_write_origin_(unsigned number) {
    char path[PMTRACE_BASE_PATH_];
    pmtrace_name_base_(path, "origin", number);
    FILE *origin = fopen(path, "we");
    bool done = origin != NULL && fprintf(origin, "0x%llx\n", (unsigned long long)pmtrace_.pools[number].from) > 0;
    if (origin != NULL && fclose(origin) != 0)
        done = false;
    return done;
}

static bool pmtrace_write_base_(unsigned number, pmtrace_range_ range) {
    char path[PMTRACE_BASE_PATH_];
    pmtrace_name_base_(path, "base", number);
    int file = open(path, O_WRONLY | O_CREAT | O_CLOEXEC, 0666);
    bool done = file >= 0 && pmtrace_fill_base_(file, &pmtrace_.pools[number], range) && pmtrace_write_origin_(number);
    int error = errno;
    if (file >= 0 && close(file) != 0 && done)
        return false;
    errno = error;
    return done;
}

/* The first part of a range that is in no base yet. */
static pmtrace_range_ pmtrace_next_unbased_(pmtrace_range_ range) {
    for (unsigned number = 0; number < pmtrace_.based_count; number++) {
        pmtrace_range_ known = pmtrace_part_(pmtrace_.based[number], range.from, range.from + range.length);
        if (known.length > 0 && known.from == range.from) {
            range = pmtrace_rest_(range, known.length);
            number = (unsigned)-1;
        }
    }
    for (unsigned number = 0; number < pmtrace_.based_count; number++) {
        if (pmtrace_.based[number].from - range.from < range.length)
            range = pmtrace_piece_(range, pmtrace_.based[number].from - range.from);
    }
    return range;
}

static bool pmtrace_add_based_(pmtrace_range_ range) {
    size_t size = (pmtrace_.based_count + 1) * sizeof range;
    pmtrace_range_ *more = (pmtrace_range_ *)realloc(pmtrace_.based, size);
    if (more == NULL)
        return false;
    pmtrace_.based = more;
    more[pmtrace_.based_count++] = range;
    return true;
}

/* Keeps what stands in a mapping and is in no base yet, where bases are wanted and the window is open. */
static void pmtrace_keep_base_(unsigned pool, pmtrace_range_ range) {
    while (pmtrace_.basing && pmtrace_.window && !pmtrace_.ended) {
        pmtrace_range_ part = pmtrace_next_unbased_(range);
        if (part.length == 0)
            return;
        if (!pmtrace_write_base_(pool, part))
            pmtrace_lose_bases_(pool, strerror(errno));
        else if (!pmtrace_add_based_(part))
            pmtrace_lose_bases_(pool, "out of memory");
        range = pmtrace_rest_(range, part.from + part.length - range.from);
    }
}

/* Keeps what stands in all mappings, since the window opens. While the trace has no store, what was made safe outside the window
 * stood there from the first: the bases are made anew. */
static void pmtrace_keep_bases_(void) {
    if (pmtrace_.basing && !pmtrace_.stored)
        pmtrace_remove_bases_();
    for (unsigned number = 0; number < pmtrace_.mapping_count; number++)
        pmtrace_keep_base_(pmtrace_.mappings[number].pool, pmtrace_.mappings[number].range);
}
