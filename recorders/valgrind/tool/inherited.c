#include "inherited.h"
#include "bases.h"
#include "children.h"
#include "options.h"
#include "output.h"
#include "pending.h"
#include "threads.h"
#include "windows.h"

enum { PATH_BYTES = 4200 };

/* A store or a flush, by the file and the place in it. */
typedef struct {
    ULong device, inode, offset;
    UInt length; /* of a store; 0: a flush */
    Bool has_old;
    UChar bytes[WORD_BYTES], old[WORD_BYTES];
} Inherited;

static Inherited *all;
static SizeT count;

static void name_file(HChar *path) {
    VG_(snprintf)
    (path, PATH_BYTES, "%s.%d.carried", absolute(options.parent_trace != NULL ? options.parent_trace : options.trace),
     VG_(getpid)());
}

static Inherited of_carried(const Carried *one) {
    const Pool *pool = pool_numbered((Int)(one->address / POOL_SPAN));
    Inherited made = {.device = pool->device, .inode = pool->inode, .offset = one->address % POOL_SPAN};
    if (one->kind != CARRIED_STORE)
        return made;
    made.length = (UInt)one->length;
    made.has_old = one->old != NULL;
    VG_(memcpy)(made.bytes, one->bytes, one->length);
    if (one->old != NULL)
        VG_(memcpy)(made.old, one->old, one->length);
    return made;
}

/* What this program has left is handed on behind what it was handed and is of no pool that it has. */
void hand_on(void) {
    HChar path[PATH_BYTES];
    SizeT carried_count, at;
    Bool done = True;
    unwrite_pending();
    Carried *carried = take_carried(&carried_count, MOST_EVENTS);
    if (count + carried_count == 0 && carried != NULL) {
        VG_(free)(carried);
        return;
    }
    name_file(path);
    SysRes opened = VG_(open)(path, VKI_O_CREAT | VKI_O_TRUNC | VKI_O_WRONLY, 0600);
    done = !sr_isError(opened) && carried != NULL;
    if (done && count > 0)
        done = VG_(write)((Int)sr_Res(opened), all, (Int)(count * sizeof *all)) == (Int)(count * sizeof *all);
    for (at = 0; done && at < carried_count; at++) {
        Inherited one = of_carried(&carried[at]);
        done = VG_(write)((Int)sr_Res(opened), &one, sizeof one) == sizeof one;
    }
    if (!done)
        VG_(printf)("pmtrim-record: %s can't be written: the next program's trace lacks what is not safe now\n", path);
    if (!sr_isError(opened))
        VG_(close)((Int)sr_Res(opened));
    if (carried != NULL)
        VG_(free)(carried);
}

void take_back(void) {
    HChar path[PATH_BYTES];
    name_file(path);
    VG_(unlink)(path);
}

void begin_inherited(void) {
    HChar path[PATH_BYTES];
    struct vg_stat status;
    if (options.parent_trace == NULL || options.one_trace)
        return;
    name_file(path);
    SysRes opened = VG_(open)(path, VKI_O_RDONLY, 0);
    if (sr_isError(opened))
        return;
    if (VG_(fstat)((Int)sr_Res(opened), &status) == 0 && status.size > 0) {
        all = VG_(malloc)("inherited", (SizeT)status.size);
        Int bytes = VG_(read)((Int)sr_Res(opened), all, (Int)status.size);
        count = bytes < 0 ? 0 : (SizeT)bytes / sizeof *all;
    }
    VG_(close)((Int)sr_Res(opened));
    VG_(unlink)(path);
}

/* In two passes, as a base gets back what stood before the newest store first. */
void inherit(const Pool *pool) {
    SizeT at, kept = 0;
    if (count == 0)
        return;
    keep_bases();
    for (at = count; at > 0; at--) {
        const Inherited *one = &all[at - 1];
        if (one->device == pool->device && one->inode == pool->inode && one->length > 0 && recording == RECORDING)
            restore_in_bases(pool_address(pool, one->offset), one->has_old ? one->old : NULL, one->length);
    }
    end_of_restoring();
    for (at = 0; at < count; at++) {
        Inherited one = all[at];
        if (one.device != pool->device || one.inode != pool->inode)
            all[kept++] = one;
        else if (one.length > 0)
            carry_store(pool_address(pool, one.offset), one.bytes, one.has_old ? one.old : NULL, one.length);
        else
            carry_flush(pool_address(pool, one.offset));
    }
    count = kept;
}
