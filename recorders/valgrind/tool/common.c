#include "common.h"
#include "children.h"
#include "options.h"

/* Behind what is in common come the pools' pages: for each pool bits that say which there are, and the pages. */
enum { MOST_PAGES = 1 << 19, BIT_BYTES = MOST_PAGES / 8, PAGES_BEGIN = 4 << 20 };
enum { NOT_SUPPORTED = 95 };
#define POOL_ROOM (BIT_BYTES + (ULong)MOST_PAGES * COMMON_PAGE)

static Common alone;
Common *common = &alone;

static Int descriptor = -1;
static const HChar *path;
static UChar *rooms[MOST_POOLS];

static void name_file(const HChar *trace) {
    HChar *name = VG_(malloc)("common.path", VG_(strlen)(trace) + sizeof ".shared");
    VG_(sprintf)(name, "%s.shared", trace);
    path = name;
}

static void fail(SysRes result) {
    VG_(printf)("pmtrim-record: %s, which the processes of one trace share: %s\n", path, VG_(strerror)(sr_Err(result)));
    VG_(exit)(2);
}

static SysRes map(ULong offset, ULong length) {
    return VG_(do_syscall)(__NR_mmap, 0, length, VKI_PROT_READ | VKI_PROT_WRITE, VKI_MAP_SHARED, (RegWord)descriptor, offset, 0, 0);
}

static void map_common(void) {
    tl_assert(sizeof *common <= PAGES_BEGIN);
    SysRes mapped = map(0, PAGES_BEGIN);
    if (sr_isError(mapped))
        fail(mapped);
    common = (Common *)sr_Res(mapped);
}

/* Room on the medium, without which a store to the mapping could end the process; where the file system has no such call a longer file. */
static SysRes take_room(ULong offset, ULong length) {
    struct vg_stat status;
    SysRes done = VG_(do_syscall)(__NR_fallocate, (RegWord)descriptor, 0, offset, length, 0, 0, 0, 0);
    if (!sr_isError(done) || sr_Err(done) != NOT_SUPPORTED || VG_(fstat)(descriptor, &status) != 0)
        return done;
    if ((ULong)status.size >= offset + length)
        return VG_(mk_SysRes_Success)(0);
    return VG_(do_syscall)(__NR_ftruncate, (RegWord)descriptor, offset + length, 0, 0, 0, 0, 0, 0);
}

static SysRes lock_call(Int command, Int kind, Int first, Int count, struct vki_flock *lock) {
    *lock = (struct vki_flock){.l_type = (short)kind, .l_whence = VKI_SEEK_SET, .l_start = first, .l_len = count};
    return VG_(do_syscall)(__NR_fcntl, (RegWord)descriptor, (RegWord)command, (RegWord)lock, 0, 0, 0, 0, 0);
}

enum { LOCKED = 1, UNLOCKED = 2 }; /* F_WRLCK, F_UNLCK */

static Bool any_locked(Int first, Int count) {
    struct vki_flock lock;
    return !sr_isError(lock_call(VKI_F_GETLK, LOCKED, first, count, &lock)) && lock.l_type != UNLOCKED;
}

void lock_byte(Int process, Bool locked) {
    struct vki_flock lock;
    SysRes done = lock_call(VKI_F_SETLK, locked ? LOCKED : UNLOCKED, process, 1, &lock);
    if (sr_isError(done))
        fail(done);
}

Bool is_byte_locked(Int process) {
    return any_locked(process, 1);
}

static SysRes open_file(Int flags) {
    SysRes opened = VG_(open)(path, VKI_O_RDWR | flags, 0600);
    if (!sr_isError(opened))
        descriptor = VG_(safe_fd)((Int)sr_Res(opened));
    return opened;
}

/* A file of this name is left where all processes of an earlier run were killed. */
static void remove_old(const HChar *trace) {
    if (sr_isError(open_file(0)))
        return;
    if (any_locked(0, MOST_PROCESSES))
        refuse(trace, ": processes of an earlier run are writing it: name another file with --trace");
    VG_(close)(descriptor);
    VG_(unlink)(path);
}

/* An older trace stays. */
static void leave_no_empty_file(const HChar *trace) {
    struct vg_stat status;
    if (descriptor >= 0)
        VG_(unlink)(path);
    if (!sr_isError(VG_(stat)(trace, &status)) && VKI_S_ISREG(status.mode) && status.size == 0)
        VG_(unlink)(trace);
}

void make_common(const HChar *trace) {
    name_file(absolute(trace));
    remove_old(trace);
    SysRes made = open_file(VKI_O_CREAT | VKI_O_EXCL);
    if (!sr_isError(made))
        made = take_room(0, PAGES_BEGIN);
    if (sr_isError(made)) {
        leave_no_empty_file(trace);
        fail(made);
    }
    map_common();
    common->first_process = VG_(getpid)();
}

Bool find_common(const HChar *trace, Int first_process) {
    name_file(trace);
    if (sr_isError(open_file(0)))
        return False;
    map_common();
    if (common->first_process == first_process && !common->over)
        return True;
    common = &alone;
    return False;
}

void remove_common(void) {
    VG_(unlink)(path);
}

/* Where the pages of a pool are mapped; NULL where they can't be. */
static UChar *room_of(Int pool) {
    if (rooms[pool] == NULL) {
        SysRes mapped = map(PAGES_BEGIN + (ULong)pool * POOL_ROOM, POOL_ROOM);
        if (!sr_isError(mapped))
            rooms[pool] = (UChar *)sr_Res(mapped);
    }
    return rooms[pool];
}

static Bool take_part(Int pool, ULong offset, ULong length) {
    return !sr_isError(take_room(PAGES_BEGIN + (ULong)pool * POOL_ROOM + offset, length));
}

SizeT common_pages(Int pool) {
    return common->pools.all[pool].pages;
}

void *common_page(Int pool, SizeT number, Bool made) {
    Pool *of = &common->pools.all[pool];
    UChar *room = room_of(pool);
    UChar bit = (UChar)(1 << (number % 8));
    if (room == NULL || (!made && number >= of->pages))
        return NULL;
    if (of->pages == 0 && !take_part(pool, 0, BIT_BYTES))
        return NULL;
    if ((room[number / 8] & bit) == 0) {
        if (!made || !take_part(pool, BIT_BYTES + (ULong)number * COMMON_PAGE, COMMON_PAGE))
            return NULL;
        if (of->pages <= number)
            of->pages = number + 1;
        room[number / 8] |= bit;
    }
    return room + BIT_BYTES + (ULong)number * COMMON_PAGE;
}
