/* libpmem2.h: the calls of libpmem2 1.12, recorded for pmtrim; they are in libpmem2/base.h. */
#ifndef LIBPMEM2_H
#define LIBPMEM2_H 1

#include <libpmem2/base.h>

#ifdef PMEM2_USE_MINIASYNC
#error "libpmem2.h: the asynchronous calls of libpmem2 are not recorded; build the program without PMEM2_USE_MINIASYNC"
#endif

#endif /* LIBPMEM2_H */
