#include "bases.h"
#include "common.h"
#include "options.h"
#include "output.h"

enum { PIECE = 1 << 16, PATH_BYTES = 4200 };

ULong lost_bases, unrestored_stores;

static BaseState *state_of(Int number) {
    return &common->bases.of_pools[number].state;
}

static void name(HChar *path, const HChar *kind, Int number) {
    if (number == 0)
        VG_(snprintf)(path, PATH_BYTES, "%s.%s", trace_place(), kind);
    else
        VG_(snprintf)(path, PATH_BYTES, "%s.%s%d", trace_place(), kind, number + 1);
}

static Bool remove_of(Int number) {
    HChar path[PATH_BYTES];
    name(path, "base", number);
    Bool removed = VG_(unlink)(path) == 0;
    name(path, "origin", number);
    return VG_(unlink)(path) == 0 || removed;
}

void begin_bases(void) {
    Int number = 0;
    while (remove_of(number))
        number++;
    for (number = 0; number < MOST_POOLS; number++)
        *state_of(number) = NO_BASE;
    lost_bases = 0;
    keep_bases();
}

static void lose(Int number, const HChar *why) {
    HChar path[PATH_BYTES];
    name(path, "base", number);
    VG_(printf)("pmtrim-record: %s: %s; there is no base of %s\n", path, why, pool_name(pool_numbered(number)));
    remove_of(number);
    *state_of(number) = LOST;
    lost_bases++;
}

/* Opens a file beside the trace; -1, and why, where that fails. */
static Int open_beside(const HChar *kind, Int number, Int flags, const HChar **why) {
    HChar path[PATH_BYTES];
    name(path, kind, number);
    SysRes opened = VG_(open)(path, VKI_O_CREAT | VKI_O_WRONLY | flags, 0666);
    if (sr_isError(opened)) {
        *why = VG_(strerror)(sr_Err(opened));
        return -1;
    }
    return VG_(safe_fd)((Int)sr_Res(opened));
}

static Bool set_length(Int descriptor, ULong length, const HChar **why) {
    SysRes done = VG_(do_syscall)(__NR_ftruncate, (RegWord)descriptor, (RegWord)length, 0, 0, 0, 0, 0, 0);
    if (sr_isError(done))
        *why = VG_(strerror)(sr_Err(done));
    return !sr_isError(done);
}

static Bool write_all(Int descriptor, const UChar *bytes, SizeT length, const HChar **why) {
    while (length > 0) {
        Int done = VG_(write)(descriptor, bytes, (Int)length);
        if (done <= 0) {
            *why = done < 0 ? VG_(strerror)((UWord)(-done)) : "nothing is written";
            return False;
        }
        bytes += done;
        length -= (SizeT)done;
    }
    return True;
}

static Bool is_zero(const UChar *bytes, SizeT length) {
    SizeT at = 0;
    while (at < length && bytes[at] == 0)
        at++;
    return at == length;
}

/* Copies a pool's file piece by piece; a piece of zeros only is left to be a hole. */
static Bool copy(const Pool *pool, Int descriptor, ULong length, const HChar **why) {
    static UChar bytes[PIECE];
    ULong at;
    if (length > 0 && read_pool(pool, 0, bytes, 1) == 0) {
        *why = "the pool can't be read";
        return False;
    }
    for (at = pool_data_from(pool, 0); at < length; at = pool_data_from(pool, at + PIECE)) {
        at = at / PIECE * PIECE;
        SizeT piece = length - at < PIECE ? (SizeT)(length - at) : PIECE;
        if (read_pool(pool, at, bytes, piece) < piece) {
            *why = "the pool can't be read";
            return False;
        }
        if (is_zero(bytes, piece))
            continue;
        VG_(lseek)(descriptor, (Off64T)at, VKI_SEEK_SET);
        if (!write_all(descriptor, bytes, piece, why))
            return False;
    }
    return True;
}

static Bool write_origin(const Pool *pool, const HChar **why) {
    HChar text[32];
    Int descriptor = open_beside("origin", pool_number(pool), VKI_O_TRUNC, why);
    VG_(snprintf)(text, sizeof text, "0x%llx\n", pool_address(pool, 0));
    Bool done = descriptor >= 0 && write_all(descriptor, (const UChar *)text, VG_(strlen)(text), why);
    if (descriptor >= 0)
        VG_(close)(descriptor);
    return done;
}

/* Of what has an address in the trace. */
static ULong base_bytes(const Pool *pool) {
    ULong length = pool_bytes(pool);
    return length < POOL_SPAN ? length : POOL_SPAN;
}

/* Makes the base as long as the pool's file is: whole at first, and later by zeros, since what is written there is in the trace. */
static void write_base(const Pool *pool, BaseState state) {
    const HChar *why = "";
    Int number = pool_number(pool);
    ULong length = base_bytes(pool);
    Int descriptor = open_beside("base", number, 0, &why);
    Bool done = descriptor >= 0 && set_length(descriptor, length, &why);
    if (done && state == NO_BASE)
        done = copy(pool, descriptor, length, &why) && write_origin(pool, &why);
    if (descriptor >= 0)
        VG_(close)(descriptor);
    if (!done) {
        lose(number, why);
        return;
    }
    *state_of(number) = KEPT;
    common->bases.of_pools[number].length = length;
}

void keep_bases(void) {
    const Pool *pool;
    Int number;
    if (!options.base || recording != RECORDING)
        return;
    for (number = 0; (pool = pool_numbered(number)) != NULL; number++)
        if (*state_of(number) == NO_BASE || (*state_of(number) == KEPT && base_bytes(pool) > common->bases.of_pools[number].length))
            write_base(pool, *state_of(number));
}

static Int restored_number = -1, restored_descriptor = -1;

void end_of_restoring(void) {
    if (restored_descriptor >= 0)
        VG_(close)(restored_descriptor);
    restored_number = restored_descriptor = -1;
}

void restore_in_bases(ULong address, const UChar *old, SizeT length) {
    Int number = (Int)(address / POOL_SPAN);
    const HChar *why = "";
    if (!options.base || *state_of(number) != KEPT)
        return;
    if (old == NULL) {
        unrestored_stores++;
        return;
    }
    if (number != restored_number) {
        end_of_restoring();
        restored_number = number;
        restored_descriptor = open_beside("base", number, 0, &why);
    }
    VG_(lseek)(restored_descriptor, (Off64T)(address % POOL_SPAN), VKI_SEEK_SET);
    if (restored_descriptor < 0 || !write_all(restored_descriptor, old, length, &why))
        lose(number, why);
}
