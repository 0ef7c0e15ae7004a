/* --- pools and their mappings --- */

/* Where a further pool begins in the trace: at a multiple of this. */
#define PMTRACE_APART_ (UINT64_C(1) << 40)
#define PMTRACE_ADDRESSES_ (UINT64_C(1) << 48)

/* The first piece of a range, of at most this length. */
static pmtrace_range_ pmtrace_piece_(pmtrace_range_ range, uint64_t most) {
    if (range.length > most)
        range.length = most;
    return range;
}

/* The range without its first bytes. */
static pmtrace_range_ pmtrace_rest_(pmtrace_range_ range, uint64_t length) {
    range.from += length;
    range.at += (uintptr_t)length;
    range.length -= length;
    return range;
}

/* The first piece of a range that is inside one word. */
static pmtrace_range_ pmtrace_in_word_(pmtrace_range_ range) {
    return pmtrace_piece_(range, PMTRACE_WORD_BYTES_ - range.from % PMTRACE_WORD_BYTES_);
}

/* The part of a range that has these addresses; of length 0 where there is none. */
static pmtrace_range_ pmtrace_part_(pmtrace_range_ range, uint64_t first, uint64_t end) {
    pmtrace_range_ none = {first, 0, 0};
    if (first < range.from)
        first = range.from;
    if (end > range.from + range.length)
        end = range.from + range.length;
    return first < end ? pmtrace_piece_(pmtrace_rest_(range, first - range.from), end - first) : none;
}

/* What the kernel says of the mapping that has this address: one that is not shared where it says nothing. */
static pmtrace_file_ pmtrace_file_at_(uintptr_t address) {
    pmtrace_file_ file = {false, {0, 0}, 0, 0, 0, 0};
    char line[512], shared;
    unsigned long start, end, offset, device[2], number;
    bool whole = true, found = false;
    FILE *maps = fopen("/proc/self/maps", "re");
    while (maps != NULL && !found && fgets(line, sizeof line, maps) != NULL) {
        /* of a long line the first piece counts */
        bool begins = whole;
        whole = strchr(line, '\n') != NULL;
        found = begins &&
                sscanf(line, "%lx-%lx %*3c%c %lx %lx:%lx %lu", &start, &end, &shared, &offset, &device[0], &device[1], &number) ==
                    7 &&
                start <= address && address < end;
    }
    if (found) {
        file.start = start;
        file.end = end;
    }
    if (found && shared == 's' && number != 0) {
        file.shared = true;
        file.device[0] = device[0];
        file.device[1] = device[1];
        file.number = number;
        file.offset = offset + (address - start);
    }
    if (maps != NULL)
        fclose(maps);
    return file;
}

static bool pmtrace_is_same_file_(pmtrace_file_ one, pmtrace_file_ other) {
    return one.shared && other.shared && one.device[0] == other.device[0] && one.device[1] == other.device[1] &&
           one.number == other.number;
}

/* The pool that a mapping of this file is a part of, or the number of pools. */
static unsigned pmtrace_pool_of_file_(pmtrace_file_ file) {
    unsigned number = 0;
    while (number < pmtrace_.pool_count && !pmtrace_is_same_file_(pmtrace_.pools[number].file, file))
        number++;
    return number;
}

/* Where the pool after this one begins: the addresses of this one end there. */
static uint64_t pmtrace_end_of_room_(unsigned pool) {
    return pool + 1 < pmtrace_.pool_count ? pmtrace_.pools[pool + 1].from - pmtrace_.pools[pool + 1].from % PMTRACE_APART_
                                          : PMTRACE_ADDRESSES_;
}

static const pmtrace_mapping_ *pmtrace_mapping_at_(uintptr_t address) {
    for (unsigned tried = 0; tried < pmtrace_.mapping_count; tried++) {
        const pmtrace_mapping_ *mapping = &pmtrace_.mappings[pmtrace_.last_mapping];
        if (address - mapping->range.at < mapping->range.length)
            return mapping;
        pmtrace_.last_mapping = (pmtrace_.last_mapping + 1) % pmtrace_.mapping_count;
    }
    return NULL;
}

/* How many bytes from the address on, at most so many, are in no mapping. */
static size_t pmtrace_gap_at_(uintptr_t address, size_t length) {
    for (unsigned number = 0; number < pmtrace_.mapping_count; number++) {
        uintptr_t start = pmtrace_.mappings[number].range.at;
        if (start >= address && start - address < length)
            length = start - address;
    }
    return length;
}

/* --- finding what a call reaches --- */

static bool pmtrace_add_alias_(uintptr_t address, size_t length);

/* What lies outside is told once, and counted. */
static void pmtrace_tell_outside_(uintptr_t start, size_t length) {
    const char *label = pmtrace_.label != NULL ? pmtrace_.label : "", *then = pmtrace_.label != NULL ? ": " : "";
    pmtrace_range_ first = {0, 0, 0};
    if (pmtrace_.mapping_count > 0)
        first = pmtrace_.mappings[0].range;
    if (pmtrace_.outside == 0)
        pmtrace_tell_("%s%s%zu bytes at %p are not all in %s (%zu bytes at %p%s); what is outside is not recorded", label, then,
                      length, (void *)start, pmtrace_.mapping_count > 1 ? "the pools" : "the pool", (size_t)first.length,
                      (void *)first.at, pmtrace_.mapping_count > 1 ? " and others" : "");
    pmtrace_.outside++;
}

/* A walk over the pieces of a range that are in pools. */
typedef struct pmtrace_walk_ {
    uintptr_t start, at, end;
    bool told; /* that a part is outside */
} pmtrace_walk_;

static pmtrace_walk_ pmtrace_walk_over_(const volatile void *start, size_t length) {
    uintptr_t first = (uintptr_t)start;
    pmtrace_walk_ walk = {first, first, length > UINTPTR_MAX - first ? UINTPTR_MAX : first + length, false};
    return walk;
}

/* The next piece, or false at the end. What is in no pool is told once a walk. */
static bool pmtrace_next_(pmtrace_walk_ *walk, pmtrace_range_ *piece) {
    while (walk->at < walk->end) {
        const pmtrace_mapping_ *mapping = pmtrace_mapping_at_(walk->at);
        if (mapping != NULL) {
            *piece = pmtrace_piece_(pmtrace_rest_(mapping->range, walk->at - mapping->range.at), walk->end - walk->at);
            walk->at += (uintptr_t)piece->length;
            return true;
        }
        size_t gap = pmtrace_gap_at_(walk->at, walk->end - walk->at);
        if (pmtrace_add_alias_(walk->at, gap))
            continue;
        if (!walk->told)
            pmtrace_tell_outside_(walk->start, walk->end - walk->start);
        walk->told = true;
        walk->at += gap;
    }
    return false;
}
