#include "others.h"
#include "children.h"
#include "pools.h"

/* Further ones are not told of. */
enum { MOST_OTHERS = 256, LAST_STREAM = 2, DESCRIPTORS = 64 };

/* It is known by its name: a file that is removed may leave its number to the next one. */
typedef struct {
    const HChar *name;
    Bool mapped;
    ULong writes, saves;
} Other;

static Other others[MOST_OTHERS];
static Int other_count;

static Bool begins(const HChar *name, const HChar *with) {
    return VG_(strncmp)(name, with, VG_(strlen)(with)) == 0;
}

/* What was found last of a descriptor, as a name is slow to read. A file that was opened later may have the number of one that is gone. */
typedef struct {
    ULong device, inode;
    Other *other;
} Found;

static Found found_last[DESCRIPTORS];

static Found *last_of(Int descriptor) {
    return &found_last[(UInt)descriptor % DESCRIPTORS];
}

void other_is_opened(Int descriptor) {
    *last_of(descriptor) = (Found){0};
}

/* The one of that name, and where there is none a new one; NULL if there is no room. */
static Other *other_named(const HChar *name) {
    Int number;
    for (number = 0; number < other_count; number++)
        if (VG_(strcmp)(others[number].name, name) == 0)
            return &others[number];
    if (other_count == MOST_OTHERS)
        return NULL;
    others[other_count] = (Other){.name = VG_(strdup)("others.name", name)};
    return &others[other_count++];
}

/* The file of a descriptor; NULL if it is a pool, or none that is told of. */
static Other *other_of(Int descriptor) {
    struct vg_stat status;
    HChar name[MOST_PATH_BYTES];
    Found *last = last_of(descriptor);
    if (VG_(fstat)(descriptor, &status) != 0 || !VKI_S_ISREG(status.mode) || status.nlink == 0)
        return NULL;
    if (last->other != NULL && last->device == status.dev && last->inode == status.ino)
        return last->other;
    if (pool_of(descriptor) != NULL || !read_name(descriptor, name) || begins(name, "/proc/") || begins(name, "/sys/"))
        return NULL;
    *last = (Found){status.dev, status.ino, other_named(name)};
    return last->other;
}

void other_is_mapped(Int descriptor) {
    Other *other;
    if ((VG_(fcntl)(descriptor, VKI_F_GETFL, 0) & VKI_O_ACCMODE) != VKI_O_RDWR)
        return;
    other = other_of(descriptor);
    if (other != NULL)
        other->mapped = True;
}

void other_is_written(Int descriptor) {
    Other *other = descriptor > LAST_STREAM ? other_of(descriptor) : NULL;
    if (other != NULL)
        other->writes++;
}

void other_is_saved(Int descriptor) {
    Other *other = other_of(descriptor);
    if (other != NULL)
        other->saves++;
}

void forget_others(void) {
    other_count = 0;
    VG_(memset)(found_last, 0, sizeof found_last);
}

static Bool is_pool_now(const Other *other) {
    const Pool *pool;
    Int number;
    for (number = 0; (pool = pool_numbered(number)) != NULL; number++)
        if (VG_(strcmp)(pool_name(pool), other->name) == 0)
            return True;
    return False;
}

/* How much of that use it had, by which the one that is named is chosen. */
static ULong used(const Other *other, OtherUse use) {
    if (is_pool_now(other))
        return 0;
    if (use == MAPPED)
        return other->mapped;
    if (use == ONLY_WRITTEN)
        return other->mapped ? 0 : other->writes;
    return other->writes > 0 ? other->saves : 0;
}

Int name_others(OtherUse use, HChar *names) {
    const Other *most = NULL;
    Int number, count = 0;
    for (number = 0; number < other_count; number++) {
        const Other *other = &others[number];
        if (used(other, use) == 0)
            continue;
        count++;
        if (most == NULL || used(other, use) > used(most, use))
            most = other;
    }
    names[0] = '\0';
    if (count == 1)
        VG_(snprintf)(names, NAMES_BYTES, "%s", from_folder(most->name));
    else if (count > 1)
        VG_(snprintf)(names, NAMES_BYTES, "%s and %d more", from_folder(most->name), count - 1);
    return count;
}

ULong saves_of_others(void) {
    ULong saves = 0;
    Int number;
    for (number = 0; number < other_count; number++)
        saves += used(&others[number], WRITTEN_AND_SAVED);
    return saves;
}
