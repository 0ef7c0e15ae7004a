#include "file_writes.h"
#include "bases.h"
#include "emptied.h"
#include "events.h"
#include "others.h"
#include "pools.h"
#include "syscalls.h"

enum { PIECE = 4096, PATH_BYTES = 4200, PUNCHES = 2, COLLAPSES = 8, ZEROES = 16, INSERTS = 32 };
enum { WRITE_THROUGH = 0x1000 /* O_DSYNC, a part of O_SYNC */, REMOVES = 9 /* MADV_REMOVE */ };
/* The flags of pwritev2. */
enum { THROUGH = 2 | 4 /* RWF_DSYNC, RWF_SYNC */, APPENDS = 16 /* RWF_APPEND */, NEVER_APPENDS = 32 /* RWF_NOAPPEND */ };

void note_system_store(ThreadId thread, Addr start, SizeT length) {
    ULong address;
    SizeT room, piece;
    for (; length > 0; start += piece, length -= piece) {
        piece = 1;
        if (find_in_pools(start, &address, &room)) {
            piece = room < length ? room : length;
            note_bytes(thread, address, (const UChar *)start, piece);
        }
    }
}

/* Notes what stands in the file now. */
static void note_file(ThreadId thread, const Pool *pool, ULong offset, ULong length) {
    UChar bytes[PIECE];
    length = with_addresses(offset, length);
    while (length > 0) {
        SizeT piece = length < PIECE ? (SizeT)length : PIECE;
        if (read_pool(pool, offset, bytes, piece) < piece) {
            system_counts.unseen_writes++;
            return;
        }
        note_bytes(thread, pool_address(pool, offset), bytes, piece);
        offset += piece;
        length -= piece;
    }
}

/* Where a write by a descriptor's own position began. */
static ULong begun_at(Int descriptor, ULong length) {
    return (ULong)VG_(lseek)(descriptor, 0, VKI_SEEK_CUR) - length;
}

/* Whether a descriptor is of the memory of a process (/proc/self/mem), and of this one. */
static Bool is_memory(Int descriptor, Bool *own) {
    struct vg_stat status;
    HChar name[MOST_PATH_BYTES], wanted[PATH_BYTES];
    if (VG_(fstat)(descriptor, &status) != 0 || status.size != 0 || !VKI_S_ISREG(status.mode) || !read_name(descriptor, name))
        return False;
    VG_(sprintf)(wanted, "/proc/%d/mem", VG_(getpid)());
    *own = VG_(strcmp)(name, wanted) == 0;
    return VG_(strncmp)(name, "/proc/", 6) == 0 && VG_(strcmp)(name + VG_(strlen)(name) - 4, "/mem") == 0;
}

static void written_to_memory(ThreadId thread, Int descriptor, Addr start, ULong length) {
    Bool own;
    if (!is_memory(descriptor, &own))
        return;
    if (own)
        note_system_store(thread, start, length);
    else
        system_counts.unseen_writes++;
}

static void written(ThreadId thread, Int descriptor, ULong offset, ULong length, UWord write_flags) {
    const Pool *pool = pool_of(descriptor);
    if (pool == NULL && length > 0)
        written_to_memory(thread, descriptor, offset, length);
    if (pool == NULL || length == 0)
        return;
    Int flags = VG_(fcntl)(descriptor, VKI_F_GETFL, 0);
    if ((write_flags & APPENDS) || ((flags & VKI_O_APPEND) && !(write_flags & NEVER_APPENDS)))
        offset = pool_bytes(pool) - length;
    note_file(thread, pool, offset, length);
    if (((write_flags & THROUGH) || (flags & WRITE_THROUGH)) && offset < POOL_SPAN)
        note_synchronized(thread, pool_address(pool, offset), pool_address(pool, offset + length < POOL_SPAN ? offset + length : POOL_SPAN));
}

/* The place behind a range that a call has copied to: its own pointer, or the descriptor's position. */
static void copied(ThreadId thread, Int descriptor, const UWord *place, ULong length) {
    ULong offset = place != NULL ? (ULong)*place - length : begun_at(descriptor, length);
    written(thread, descriptor, offset, length, 0);
}

/* The file that a call names by a descriptor of a folder and a path. */
static Pool *pool_named(Int folder, const HChar *path) {
    HChar whole[PATH_BYTES];
    if (!VG_(am_is_valid_for_client)((Addr)path, 1, VKI_PROT_READ))
        return NULL;
    if (path[0] == '/' || folder == VKI_AT_FDCWD)
        return pool_at(path);
    VG_(snprintf)(whole, sizeof whole, "/proc/self/fd/%d/%s", folder, path);
    return pool_at(whole);
}

/* Of a call that opens a file: its flags. */
static UWord opening_flags(UInt call, const UWord *arguments) {
    return call == __NR_open ? arguments[1] : call == __NR_openat ? arguments[2] : VKI_O_CREAT | VKI_O_TRUNC | VKI_O_WRONLY;
}

/* Of a call that may cut the file: finds what it is going to empty. */
static void before_cutting(ThreadId thread, UInt call, const UWord *arguments) {
    const Pool *pool = NULL;
    ULong from = 0;
    if (call == __NR_ftruncate || call == __NR_truncate) {
        pool = call == __NR_ftruncate ? pool_of((Int)arguments[0]) : pool_named(VKI_AT_FDCWD, (const HChar *)arguments[0]);
        from = arguments[1];
    } else if (opening_flags(call, arguments) & VKI_O_TRUNC)
        pool = call == __NR_openat ? pool_named((Int)arguments[0], (const HChar *)arguments[1])
                                   : pool_named(VKI_AT_FDCWD, (const HChar *)arguments[0]);
    if (pool != NULL)
        find_emptied(thread, pool, from, pool_bytes(pool));
}

/* Of madvise: whether it makes a hole in the file of one mapping, and where. */
static Bool makes_hole(const UWord *arguments, ULong *address, SizeT *length) {
    SizeT room;
    *length = VG_PGROUNDUP(arguments[1]);
    return arguments[2] == REMOVES && find_in_pools(arguments[0], address, &room) && *length <= room;
}

static void before_advice(ThreadId thread, const UWord *arguments) {
    ULong address;
    SizeT length;
    if (makes_hole(arguments, &address, &length))
        find_emptied(thread, pool_numbered((Int)(address / POOL_SPAN)), address % POOL_SPAN, address % POOL_SPAN + length);
}

static void after_advice(ThreadId thread, const UWord *arguments) {
    ULong address;
    SizeT length;
    if (makes_hole(arguments, &address, &length))
        note_emptied(thread);
    else if (arguments[2] == REMOVES && arguments[0] - pools_begin < pools_span)
        system_counts.cut_files++;
}

/* Whether a call writes to the file of its first argument, or of its third. */
static Bool writes_to(UInt call, const UWord *arguments, Int *descriptor) {
    *descriptor = (Int)arguments[call == __NR_copy_file_range || call == __NR_splice ? 2 : 0];
    return call == __NR_write || call == __NR_writev || call == __NR_pwrite64 || call == __NR_pwritev || call == __NR_pwritev2 ||
           call == __NR_sendfile || call == __NR_copy_file_range || call == __NR_splice || call == __NR_ftruncate ||
           call == __NR_fallocate;
}

void before_file_call(ThreadId thread, UInt call, const UWord *arguments) {
    Int descriptor;
    if (!had_pools() && !options.written)
        return;
    if (writes_to(call, arguments, &descriptor) && opened(descriptor))
        keep_bases();
    switch (call) {
    case __NR_ftruncate:
    case __NR_truncate:
    case __NR_open:
    case __NR_openat:
    case __NR_creat:
        before_cutting(thread, call, arguments);
        break;
    case __NR_fallocate:
        if ((arguments[1] & (PUNCHES | ZEROES)) && pool_of(descriptor) != NULL)
            find_emptied(thread, pool_of(descriptor), arguments[2], arguments[2] + arguments[3]);
        break;
    case __NR_madvise:
        before_advice(thread, arguments);
        break;
    default:
        break;
    }
}

static Bool opens(UInt call) {
    return call == __NR_open || call == __NR_openat || call == __NR_creat;
}

/* Told where a call opened a file, cut it, made it longer or moved bytes in it. */
static void after_shaping(ThreadId thread, UInt call, const UWord *arguments, ULong result) {
    Bool by_name = call == __NR_truncate;
    Int descriptor = opens(call) ? (Int)result : (Int)arguments[0];
    if (opens(call) && opened(descriptor))
        keep_bases();
    Pool *pool = by_name ? pool_named(VKI_AT_FDCWD, (const HChar *)arguments[0]) : pool_of(descriptor);
    if (pool != NULL)
        pool_may_be_cut(pool);
    note_emptied(thread);
    if (call == __NR_fallocate && (arguments[1] & (COLLAPSES | INSERTS)) && pool != NULL)
        system_counts.cut_files++;
}

/* That a file is cut or made longer is no sign of what it is for. */
static void note_other(UInt call, const UWord *arguments, ULong result) {
    Int descriptor;
    if (opens(call))
        other_is_opened((Int)result);
    else if (writes_to(call, arguments, &descriptor) && call != __NR_ftruncate && call != __NR_fallocate)
        other_is_written(descriptor);
}

void after_file_call(ThreadId thread, UInt call, const UWord *arguments, ULong result) {
    Int descriptor = (Int)arguments[0];
    note_other(call, arguments, result);
    if (!had_pools() && !options.written)
        return;
    switch (call) {
    case __NR_write:
    case __NR_writev:
        written(thread, descriptor, begun_at(descriptor, result), result, 0);
        break;
    case __NR_pwrite64:
    case __NR_pwritev:
        written(thread, descriptor, arguments[3], result, 0);
        break;
    case __NR_pwritev2: {
        Bool at_position = arguments[3] == (UWord)-1;
        written(thread, descriptor, at_position ? begun_at(descriptor, result) : arguments[3], result, arguments[5]);
        break;
    }
    case __NR_sendfile:
        copied(thread, descriptor, NULL, result);
        break;
    case __NR_copy_file_range:
    case __NR_splice:
        copied(thread, (Int)arguments[2], (const UWord *)arguments[3], result);
        break;
    case __NR_open:
    case __NR_openat:
    case __NR_creat:
    case __NR_ftruncate:
    case __NR_truncate:
    case __NR_fallocate:
        after_shaping(thread, call, arguments, result);
        break;
    case __NR_madvise:
        after_advice(thread, arguments);
        break;
    default:
        break;
    }
}
