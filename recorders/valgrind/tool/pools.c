#include "pools.h"
#include "common.h"
#include "descriptors.h"
#include "inherited.h"
#include "options.h"
#include "others.h"

enum { LARGEST_STORE = 4096, KIND_OF_SHARING = 15, LINK_BYTES = 64 };

/* What this process has of a pool: a descriptor of the recorder's own, to read by; -1 where it can't be read. */
typedef struct {
    Bool known;
    Int descriptor;
} OwnPool;

typedef struct {
    Addr start;
    SizeT length;
    Int pool;
    ULong offset;
} Mapping;

UWord pools_begin, pools_span;
PoolCounts pool_counts;

static OwnPool own_pools[MOST_POOLS];
static Mapping *mappings;
static Int mapping_count, mapping_room;
static Int last_found;
static Bool any_mapped;

Bool had_pools(void) {
    return common->pools.count > 0;
}

Bool had_mappings(void) {
    return any_mapped;
}

Bool find_in_pools(Addr place, ULong *address, SizeT *room) {
    Int number = last_found, tried;
    for (tried = 0; tried < mapping_count; tried++, number++) {
        if (number >= mapping_count)
            number = 0;
        const Mapping *mapping = &mappings[number];
        if (place - mapping->start < mapping->length) {
            SizeT into = place - mapping->start;
            last_found = number;
            *address = (ULong)mapping->pool * POOL_SPAN + mapping->offset + into;
            *room = mapping->length - into;
            return True;
        }
    }
    return False;
}

static void find_bounds(void) {
    Addr first = ~(Addr)0, last = 0;
    Int number;
    for (number = 0; number < mapping_count; number++) {
        const Mapping *mapping = &mappings[number];
        if (mapping->start < first)
            first = mapping->start;
        if (mapping->start + mapping->length > last)
            last = mapping->start + mapping->length;
    }
    pools_begin = mapping_count > 0 ? first - LARGEST_STORE : 0;
    pools_span = mapping_count > 0 ? last - pools_begin : 0;
    last_found = 0;
}

static void add(Mapping added) {
    if (added.length == 0)
        return;
    if (mapping_count == mapping_room) {
        mapping_room = 2 * mapping_room + 16;
        mappings = VG_(realloc)("pools.mappings", mappings, (SizeT)mapping_room * sizeof *mappings);
    }
    mappings[mapping_count++] = added;
}

/* Takes [start, start + length) out of all mappings. */
static void take_out(Addr start, SizeT length) {
    Addr end = start + length;
    Int number;
    for (number = mapping_count - 1; number >= 0; number--) {
        Mapping old = mappings[number];
        Addr old_end = old.start + old.length;
        if (old.start >= end || start >= old_end)
            continue;
        mappings[number] = mappings[--mapping_count];
        if (old.start < start)
            add((Mapping){old.start, start - old.start, old.pool, old.offset});
        if (end < old_end)
            add((Mapping){end, old_end - end, old.pool, old.offset + (end - old.start)});
    }
}

static SizeT whole_pages(SizeT length) {
    return VG_PGROUNDUP(length);
}

static void name_link(HChar *link, Int descriptor) {
    VG_(snprintf)(link, LINK_BYTES, "/proc/self/fd/%d", descriptor);
}

Bool read_name(Int descriptor, HChar *name) {
    HChar link[LINK_BYTES];
    name_link(link, descriptor);
    SSizeT length = VG_(readlink)(link, name, MOST_PATH_BYTES - 1);
    name[length < 0 ? 0 : length] = '\0';
    return length >= 0;
}

static Bool fits(const PoolName *pool, const HChar *name) {
    SizeT length = VG_(strlen)(pool->text);
    return VG_(strncmp)(name, pool->text, length) == 0 && (pool->kind != VERY_FILE || name[length] == '\0');
}

/* The number of the word by which a file of this name is a pool; -1 if there is none. */
static Int word_for(const HChar *name, Bool mapped) {
    Int number;
    for (number = 0; number < options.name_count; number++)
        if ((mapped || options.names[number].written) && fits(&options.names[number], name))
            return number;
    return -1;
}

/* Without names each regular file that is mapped and may be written counts as a pool. */
static Bool is_pool_file(Int descriptor, const struct vg_stat *status, const HChar *name, Bool mapped) {
    if (VKI_S_ISDIR(status->mode))
        return False;
    if (options.name_count == 0)
        return VKI_S_ISREG(status->mode) && (VG_(fcntl)(descriptor, VKI_F_GETFL, 0) & VKI_O_ACCMODE) == VKI_O_RDWR;
    return word_for(name, mapped) >= 0;
}

/* Opens a pool's file by some name, to read it. */
static void learn(Int number, const HChar *name) {
    own_pools[number] = (OwnPool){True, open_reserved(name, VKI_O_RDONLY)};
    pool_counts.unreadable += own_pools[number].descriptor < 0;
}

static void learn_by(Int number, Int descriptor) {
    HChar link[LINK_BYTES];
    name_link(link, descriptor);
    learn(number, link);
}

static Int descriptor_of(const Pool *pool) {
    Int number = pool_number(pool);
    if (!own_pools[number].known)
        learn(number, pool->name);
    return own_pools[number].descriptor;
}

/* When a file was made, where its file system tells; else 0. */
static ULong born(Int descriptor) {
    enum { BIRTH = 0x800 };
    struct vki_statx found = {0};
    SysRes done = VG_(do_syscall)(__NR_statx, (RegWord)descriptor, (RegWord) "", VKI_AT_EMPTY_PATH, BIRTH, (RegWord)&found, 0, 0, 0);
    if (sr_isError(done) || (found.stx_mask & BIRTH) == 0)
        return 0;
    return (ULong)found.stx_btime.tv_sec * 1000000000 + found.stx_btime.tv_nsec;
}

static Int find_pool(const struct vg_stat *status) {
    Int number;
    for (number = 0; number < common->pools.count; number++)
        if (common->pools.all[number].device == status->dev && common->pools.all[number].inode == status->ino)
            return number;
    return -1;
}

/* The pool that a descriptor is open for; -1 if it is none. The number of a file that all processes have left may be that of a new one. */
static Int pool_of_file(Int descriptor, const struct vg_stat *status) {
    Int number = find_pool(status);
    if (number < 0 || own_pools[number].known)
        return number;
    if (common->pools.all[number].born != born(descriptor)) {
        common->pools.all[number].inode = 0;
        return -1;
    }
    learn_by(number, descriptor);
    return number;
}

static Int add_pool(Int descriptor, const struct vg_stat *status, const HChar *name, Bool is_mapped) {
    Int number = common->pools.count;
    Pool *added = &common->pools.all[number];
    *added = (Pool){.device = status->dev, .inode = status->ino, .born = born(descriptor), .by = word_for(name, is_mapped)};
    VG_(strcpy)(added->name, name);
    learn_by(number, descriptor);
    common->pools.count++;
    pool_may_be_cut(added);
    inherit(added);
    return number;
}

/* The number of the pool that a descriptor is open for, a new one if it is one; -1 if not. */
static Int known_pool(Int descriptor, Bool is_mapped) {
    struct vg_stat status;
    HChar name[MOST_PATH_BYTES];
    if (VG_(fstat)(descriptor, &status) != 0)
        return -1;
    Int number = pool_of_file(descriptor, &status);
    if (number >= 0 || !read_name(descriptor, name) || !is_pool_file(descriptor, &status, name, is_mapped))
        return number;
    if (common->pools.count == MOST_POOLS) {
        pool_counts.too_many++;
        return -1;
    }
    return add_pool(descriptor, &status, name, is_mapped);
}

Bool opened(Int descriptor) {
    Int before = common->pools.count;
    return options.written && known_pool(descriptor, False) >= before;
}

void mapped(Addr start, SizeT length, Int flags, Int descriptor, ULong offset) {
    length = whole_pages(length);
    take_out(start, length);
    Int sharing = flags & KIND_OF_SHARING;
    Bool shared = sharing == VKI_MAP_SHARED || sharing == (VKI_MAP_SHARED | VKI_MAP_PRIVATE);
    if (shared && (flags & VKI_MAP_ANONYMOUS) == 0) {
        Int pool = known_pool(descriptor, True);
        any_mapped = any_mapped || pool >= 0;
        if (pool < 0)
            other_is_mapped(descriptor);
        if (pool >= 0 && with_addresses(offset, length) == length)
            add((Mapping){start, length, pool, offset});
    }
    find_bounds();
}

void unmapped(Addr start, SizeT length) {
    take_out(start, whole_pages(length));
    find_bounds();
}

void moved(Addr from, SizeT old_length, Addr to, SizeT new_length, Bool stays) {
    ULong address;
    SizeT room;
    Bool in_pool = find_in_pools(from, &address, &room);
    if (old_length > 0 && !stays)
        take_out(from, whole_pages(old_length));
    take_out(to, whole_pages(new_length));
    if (in_pool && with_addresses(address % POOL_SPAN, whole_pages(new_length)) == whole_pages(new_length))
        add((Mapping){to, whole_pages(new_length), (Int)(address / POOL_SPAN), address % POOL_SPAN});
    find_bounds();
}

Pool *pool_of(Int descriptor) {
    struct vg_stat status;
    if (common->pools.count == 0 || VG_(fstat)(descriptor, &status) != 0)
        return NULL;
    return pool_numbered(pool_of_file(descriptor, &status));
}

Pool *pool_at(const HChar *path) {
    struct vg_stat status;
    if (common->pools.count == 0 || sr_isError(VG_(stat)(path, &status)))
        return NULL;
    return pool_numbered(find_pool(&status));
}

Pool *pool_numbered(Int number) {
    return number >= 0 && number < common->pools.count ? &common->pools.all[number] : NULL;
}

Int pool_number(const Pool *pool) {
    return (Int)(pool - common->pools.all);
}

ULong pool_address(const Pool *pool, ULong offset) {
    return (ULong)pool_number(pool) * POOL_SPAN + offset;
}

ULong with_addresses(ULong offset, ULong length) {
    ULong room = offset < POOL_SPAN ? POOL_SPAN - offset : 0;
    pool_counts.too_far += length > room;
    return length < room ? length : room;
}

const HChar *pool_name(const Pool *pool) {
    return pool->name;
}

const PoolName *pool_taken_by(const Pool *pool) {
    return pool->by < 0 ? NULL : &options.names[pool->by];
}

SizeT read_pool(const Pool *pool, ULong offset, void *buffer, SizeT length) {
    Int descriptor = descriptor_of(pool);
    SizeT done = 0;
    while (descriptor >= 0 && done < length) {
        SysRes got = VG_(pread)(descriptor, (HChar *)buffer + done, (Int)(length - done), (OffT)(offset + done));
        if (sr_isError(got) || sr_Res(got) == 0)
            break;
        done += sr_Res(got);
    }
    return done;
}

ULong pool_bytes(const Pool *pool) {
    struct vg_stat status;
    Int descriptor = descriptor_of(pool);
    return descriptor >= 0 && VG_(fstat)(descriptor, &status) == 0 ? (ULong)status.size : 0;
}

ULong pool_data_from(const Pool *pool, ULong offset) {
    enum { SEEK_TO_DATA = 3 };
    Int descriptor = descriptor_of(pool);
    SysRes found;
    if (descriptor < 0)
        return POOL_SPAN;
    found = VG_(do_syscall)(__NR_lseek, (RegWord)descriptor, (RegWord)offset, SEEK_TO_DATA, 0, 0, 0, 0, 0);
    if (sr_isError(found))
        return sr_Err(found) == VKI_ENXIO ? POOL_SPAN : offset;
    return (ULong)sr_Res(found);
}

void pool_may_be_cut(Pool *pool) {
    struct vg_stat status;
    Int descriptor = descriptor_of(pool);
    Bool ends = descriptor >= 0 && VG_(fstat)(descriptor, &status) == 0 && VKI_S_ISREG(status.mode);
    pool->end = ends ? (ULong)status.size : POOL_SPAN;
}

SizeT within_file(ULong address, SizeT length) {
    Pool *pool = &common->pools.all[address / POOL_SPAN];
    ULong offset = address % POOL_SPAN;
    if (offset + length > pool->end)
        pool_may_be_cut(pool);
    if (offset >= pool->end)
        return 0;
    return length < pool->end - offset ? length : (SizeT)(pool->end - offset);
}

Bool covers_mapping(Addr start, SizeT length) {
    Int number;
    for (number = 0; number < mapping_count; number++)
        if (start <= mappings[number].start && mappings[number].start + mappings[number].length <= start + length)
            return True;
    return False;
}
