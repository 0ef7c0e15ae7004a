/* --- pools come, grow and go --- */

/* Where a range is to be: its pool, or the number of pools where it is a new one, and its address. */
typedef struct pmtrace_place_ {
    unsigned pool;
    uint64_t from;
    const char *refusal; /* why it can't be recorded, or NULL */
} pmtrace_place_;

/* A mapping that has a byte of these, or NULL. */
static const pmtrace_mapping_ *pmtrace_overlapping_(uintptr_t at, size_t length) {
    const pmtrace_mapping_ *found = pmtrace_mapping_at_(at);
    size_t gap = pmtrace_gap_at_(at, length);
    return found != NULL || gap == length ? found : pmtrace_mapping_at_(at + gap);
}

static uint64_t pmtrace_first_free_(void) {
    uint64_t end = pmtrace_.pool_count == 0 ? 0 : pmtrace_.pools[pmtrace_.pool_count - 1].end;
    return (end + PMTRACE_APART_ - 1) / PMTRACE_APART_ * PMTRACE_APART_;
}

static pmtrace_place_ pmtrace_place_of_(uintptr_t at, size_t length, pmtrace_file_ file) {
    pmtrace_place_ place = {pmtrace_pool_of_file_(file), 0, NULL};
    const pmtrace_mapping_ *known = pmtrace_overlapping_(at, length);
    if (place.pool < pmtrace_.pool_count) {
        const pmtrace_pool_ *pool = &pmtrace_.pools[place.pool];
        if (file.offset < pool->file.offset)
            place.refusal = "it begins before the first byte of its pool";
        place.from = pool->from + (file.offset - pool->file.offset);
    } else if (known != NULL && !file.shared && !pmtrace_.pools[known->pool].file.shared) {
        place.pool = known->pool;
        if (at < known->range.at)
            place.refusal = "it begins before the first byte of its pool";
        place.from = known->range.from + (at - known->range.at);
    } else {
        place.from = pmtrace_first_free_() + at % pmtrace_.line_size;
    }
    if (place.refusal == NULL && (uint64_t)length > pmtrace_end_of_room_(place.pool) - place.from)
        place.refusal = "the pool is longer than the addresses that are left";
    return place;
}

#ifndef O_PATH
#define O_PATH 010000000
#endif

enum { PMTRACE_FIRST_KEPT_ = 500 }; /* a descriptor's number that is out of the program's way */

/* The path of the file that is mapped there; false where there is none. */
static bool pmtrace_path_at_(uintptr_t address, char path[PMTRACE_BASE_PATH_]) {
    char line[PMTRACE_BASE_PATH_ + 200];
    unsigned long start, end;
    bool found = false;
    FILE *maps = fopen("/proc/self/maps", "re");
    while (maps != NULL && !found && fgets(line, sizeof line, maps) != NULL)
        found = sscanf(line, "%lx-%lx", &start, &end) == 2 && start <= address && address < end;
    if (maps != NULL)
        fclose(maps);
    char *first = found ? strchr(line, '/') : NULL, *last = found ? strchr(line, '\n') : NULL;
    if (first == NULL || last == NULL || last - first >= PMTRACE_BASE_PATH_)
        return false;
    memcpy(path, first, (size_t)(last - first));
    path[last - first] = '\0';
    return true;
}

/* A descriptor by a file's path alone, or -1. It keeps none of the program's locks: a mapping would keep those of flock, and the end of an
 * ordinary descriptor would give up those of fcntl. */
static int pmtrace_keep_path_(uintptr_t at, pmtrace_file_ file) {
    char path[PMTRACE_BASE_PATH_];
    struct stat status;
    int found = pmtrace_path_at_(at, path) ? open(path, O_PATH | O_CLOEXEC) : -1;
    bool same = found >= 0 && fstat(found, &status) == 0 && status.st_ino == file.number;
    int kept = same ? fcntl(found, F_DUPFD_CLOEXEC, PMTRACE_FIRST_KEPT_) : -1;
    if (found >= 0 && !(same && kept < 0))
        close(found);
    return same && kept < 0 ? found : kept;
}

/* Keeps a pool's file: while it is kept no other file gets the number by which this one is known. Where its path leads to it no more a
 * page of it is mapped once more, not to be read. */
static void pmtrace_keep_file_(pmtrace_pool_ *pool, uintptr_t at) {
    const uintptr_t page = (uintptr_t)sysconf(_SC_PAGESIZE);
    const long may_move = 1; /* MREMAP_MAYMOVE: of a shared mapping with the length 0 it makes another one */
    if (!pool->file.shared)
        return;
    pool->kept_file = pmtrace_keep_path_(at, pool->file);
    if (pool->kept_file >= 0)
        return;
    void *kept = (void *)(uintptr_t)syscall(SYS_mremap, at - at % page, 0L, page, may_move, 0L);
    if (kept == MAP_FAILED)
        return;
    (void)mprotect(kept, page, PROT_NONE);
    pool->kept = kept;
}

/* The program may have closed all descriptors, and opened others by their numbers. */
static void pmtrace_unkeep_file_(const pmtrace_pool_ *pool) {
    struct stat status;
    bool same = pool->kept_file >= 0 && (fcntl(pool->kept_file, F_GETFL) & O_PATH) != 0 && fstat(pool->kept_file, &status) == 0 &&
                status.st_ino == pool->file.number;
    if (same)
        close(pool->kept_file);
    if (pool->kept != NULL)
        munmap(pool->kept, (size_t)sysconf(_SC_PAGESIZE));
}

static bool pmtrace_add_pool_(uintptr_t at, uint64_t from, pmtrace_file_ file) {
    pmtrace_pool_ pool = {from, from, file, NULL, NULL, -1};
    pmtrace_pool_ *more = (pmtrace_pool_ *)realloc(pmtrace_.pools, (pmtrace_.pool_count + 1) * sizeof pool);
    if (more == NULL)
        return false;
    pmtrace_keep_file_(&pool, at);
    pmtrace_.pools = more;
    more[pmtrace_.pool_count++] = pool;
    return true;
}

/* Makes one of two mappings that continue one another in memory and in the pool, so that a line or a word of both is one. */
static void pmtrace_join_mappings_(void) {
    for (unsigned first = 0; first < pmtrace_.mapping_count; first++) {
        for (unsigned second = 0; second < pmtrace_.mapping_count; second++) {
            pmtrace_mapping_ *one = &pmtrace_.mappings[first];
            const pmtrace_mapping_ *other = &pmtrace_.mappings[second];
            if (one->pool == other->pool && one->shared == other->shared && one->tracked == other->tracked &&
                one->range.from + one->range.length == other->range.from &&
                one->range.at + (uintptr_t)one->range.length == other->range.at) {
                one->range.length += other->range.length;
                pmtrace_remove_mapping_(second);
                first = second = (unsigned)-1;
                break;
            }
        }
    }
}

static bool pmtrace_insert_mapping_(pmtrace_mapping_ mapping) {
    pmtrace_mapping_ *more = (pmtrace_mapping_ *)realloc(pmtrace_.mappings, (pmtrace_.mapping_count + 1) * sizeof mapping);
    if (more == NULL)
        return false;
    pmtrace_.mappings = more;
    more[pmtrace_.mapping_count++] = mapping;
    return true;
}

/* Adds a mapping that overlaps none. */
static bool pmtrace_add_mapping_(unsigned pool_number, pmtrace_range_ range, bool shared) {
    pmtrace_mapping_ mapping = {range, pool_number, shared, false};
    pmtrace_pool_ *pool = &pmtrace_.pools[pool_number];
    if (pool->end < range.from + range.length)
        pool->end = range.from + range.length;
    if (pmtrace_.watching && !pmtrace_make_copy_(pool))
        return false;
    if (pmtrace_.watching)
        pmtrace_begin_to_watch_(&mapping);
    pmtrace_keep_base_(pool_number, range);
    return pmtrace_insert_mapping_(mapping);
}

/* Takes the bytes off the mappings that have them. */
static void pmtrace_unmap_(uintptr_t at, size_t length) {
    unsigned number = 0;
    while (number < pmtrace_.mapping_count) {
        pmtrace_mapping_ mapping = pmtrace_.mappings[number];
        uintptr_t first = mapping.range.at, end = first + (uintptr_t)mapping.range.length;
        if (at >= end || at + length <= first) {
            number++;
            continue;
        }
        pmtrace_remove_mapping_(number);
        pmtrace_mapping_ before = mapping, after = mapping;
        before.range = pmtrace_piece_(mapping.range, at > first ? at - first : 0);
        after.range = pmtrace_rest_(mapping.range, at + length < end ? at + length - first : mapping.range.length);
        /* one of the two takes the free place; for the other room is left by what was taken off, or asked for */
        if (before.range.length > 0)
            pmtrace_.mappings[pmtrace_.mapping_count++] = before;
        if (after.range.length > 0 && before.range.length == 0)
            pmtrace_.mappings[pmtrace_.mapping_count++] = after;
        else if (after.range.length > 0 && !pmtrace_insert_mapping_(after))
            pmtrace_miss_("there is no memory for another mapping; a part of a pool is not recorded");
    }
}

/* Takes off what stands in the way of a new mapping: the program unmapped it and did not tell. */
static void pmtrace_unmap_stale_(pmtrace_place_ place, uintptr_t at, size_t length) {
    for (unsigned number = 0; number < pmtrace_.mapping_count; number++) {
        const pmtrace_mapping_ *mapping = &pmtrace_.mappings[number];
        uintptr_t first = mapping->range.at, end = first + (uintptr_t)mapping->range.length;
        bool same = mapping->pool == place.pool && mapping->range.from - first == place.from - at;
        if (at < end && first < at + length && !same) {
            if (pmtrace_.watching)
                pmtrace_miss_(
                    "a watched pool was unmapped without pmtrace_forget; plain stores since the last look are not in the trace");
            uintptr_t from = at > first ? at : first;
            pmtrace_unmap_(from, (at + length < end ? at + length : end) - from);
            number = (unsigned)-1;
        }
    }
}

/* Adds what of the range is in no mapping yet. */
static bool pmtrace_map_(pmtrace_place_ place, uintptr_t at, size_t length, bool shared) {
    pmtrace_range_ left = {place.from, length, at};
    while (left.length > 0) {
        const pmtrace_mapping_ *known = pmtrace_mapping_at_(left.at);
        uint64_t more = known != NULL ? known->range.at + known->range.length - left.at : pmtrace_gap_at_(left.at, left.length);
        pmtrace_range_ piece = pmtrace_piece_(left, more);
        if (known == NULL && !pmtrace_add_mapping_(place.pool, piece, shared))
            return false;
        left = pmtrace_rest_(left, piece.length);
    }
    pmtrace_join_mappings_();
    return true;
}

/* Records the range from here on. Answers why it can't, or NULL. */
static const char *pmtrace_begin_pool_(const void *base, size_t length) {
    uintptr_t at = (uintptr_t)base;
    if (base == NULL || length == 0 || length > UINTPTR_MAX - at)
        return "there is no such pool";
    pmtrace_file_ file = pmtrace_file_at_(at);
    pmtrace_place_ place = pmtrace_place_of_(at, length, file);
    if (place.refusal != NULL)
        return place.refusal;
    pmtrace_unmap_stale_(place, at, length);
    if (place.pool == pmtrace_.pool_count && !pmtrace_add_pool_(at, place.from, file))
        return "out of memory";
    return pmtrace_map_(place, at, length, file.shared) ? NULL : "out of memory";
}

/* Where an address that is in no mapping belongs to a file that is a pool, its mapping is added, as far as the pool is known. */
static bool pmtrace_add_alias_(uintptr_t address, size_t length) {
    pmtrace_file_ file = pmtrace_file_at_(address);
    unsigned number = pmtrace_pool_of_file_(file);
    if (number == pmtrace_.pool_count || file.offset < pmtrace_.pools[number].file.offset)
        return false;
    const pmtrace_pool_ *pool = &pmtrace_.pools[number];
    pmtrace_place_ place = {number, pool->from + (file.offset - pool->file.offset), NULL};
    if (place.from >= pool->end)
        return false;
    uintptr_t first = file.start, end = file.end;
    uint64_t before = place.from - pool->from, after = pool->end - place.from;
    if (address - first > before)
        first = address - (uintptr_t)before;
    if (end - address > after)
        end = address + (uintptr_t)after;
    (void)length;
    place.from -= address - first;
    return pmtrace_map_(place, first, end - first, true);
}
