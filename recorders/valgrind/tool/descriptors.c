#include "descriptors.h"

/* A pool has one, and a thread; of what the program may open at most a quarter is taken. */
enum { WANTED = 512, SHARE = 4, DUPLICATE_CLOSED_BY_EXECUTION = 1030 };

void reserve_descriptors(void) {
    struct vki_rlimit limit;
    ULong wanted = WANTED;
    if (VG_(getrlimit)(VKI_RLIMIT_NOFILE, &limit) != 0)
        return;
    if (limit.rlim_max - limit.rlim_cur >= wanted) {
        limit.rlim_cur += wanted;
        VG_(setrlimit)(VKI_RLIMIT_NOFILE, &limit);
        return;
    }
    if (wanted > (ULong)VG_(fd_soft_limit) / SHARE)
        wanted = (ULong)VG_(fd_soft_limit) / SHARE;
    VG_(fd_soft_limit) -= (Int)wanted;
    VG_(fd_hard_limit) = VG_(fd_soft_limit);
}

Int open_reserved(const HChar *path, Int flags) {
    SysRes opened = VG_(open)(path, flags, 0);
    Int kept;
    if (sr_isError(opened))
        return -1;
    kept = VG_(fcntl)((Int)sr_Res(opened), DUPLICATE_CLOSED_BY_EXECUTION, (Addr)VG_(fd_hard_limit));
    VG_(close)((Int)sr_Res(opened));
    return kept < 0 ? -1 : kept;
}
