/* The pools: files that the program has mapped shared, and where; by the words --file also files that it only writes to. A file has
 * the addresses from its number times POOL_SPAN on, wherever and however often it is mapped. */
#ifndef POOLS_H
#define POOLS_H

#include "core.h"
#include "options.h"

enum { MOST_POOLS = 256 };
#define POOL_SPAN (1ULL << 40)

enum { MOST_PATH_BYTES = 4200 };

/* A pool as the processes of a trace have it in common. The file is known by its device, its number there and when it was made; with
 * number 0 it is gone. */
typedef struct {
    ULong device, inode, born;
    HChar name[MOST_PATH_BYTES];
    Int by;      /* the number of the word by which it is a pool; -1: by its mapping alone */
    ULong end;   /* of the file, as it was seen last */
    SizeT pages; /* how many parts of it may have a page in common (dirty.h) */
} Pool;

typedef struct {
    Int count;
    Pool all[MOST_POOLS];
} Pools;

/* Each address in a mapping of a pool, and each beginning of a store that reaches into one, is in these bytes. Read by the
 * program's translated code. */
extern UWord pools_begin, pools_span;

/* What can't be recorded, for the last line. */
typedef struct {
    ULong too_many, too_far, unreadable;
} PoolCounts;

extern PoolCounts pool_counts;

/* Whether there ever was a pool, and whether one was mapped. */
Bool had_pools(void);
Bool had_mappings(void);

/* Finds the trace address of a place, and how many bytes from it on lie in the same mapping. */
Bool find_in_pools(Addr place, ULong *address, SizeT *room);

/* A descriptor was opened, or is about to be written to: whether its file is a new pool by that. */
Bool opened(Int descriptor);

/* What the program's calls did to its mappings. */
void mapped(Addr start, SizeT length, Int flags, Int descriptor, ULong offset);
void unmapped(Addr start, SizeT length);
void moved(Addr from, SizeT old_length, Addr to, SizeT new_length, Bool stays);

/* The pool that a descriptor is open for, and the one that a file name leads to; NULL if there is none. */
Pool *pool_of(Int descriptor);
Pool *pool_at(const HChar *path);
Pool *pool_numbered(Int number);
Int pool_number(const Pool *pool);

ULong pool_address(const Pool *pool, ULong offset);

/* How many bytes of a range of a pool's file have an address: those from POOL_SPAN on have none, which is counted. */
ULong with_addresses(ULong offset, ULong length);
const HChar *pool_name(const Pool *pool);

/* The full name of a descriptor's file, of at most MOST_PATH_BYTES with its end; whether there is one. */
Bool read_name(Int descriptor, HChar *name);

/* The word of the command line by which it is a pool; NULL if there is none. */
const PoolName *pool_taken_by(const Pool *pool);

/* Reads bytes of the pool's file; how many. */
SizeT read_pool(const Pool *pool, ULong offset, void *buffer, SizeT length);
ULong pool_bytes(const Pool *pool);

/* How many bytes from a trace address on are in the pool's file: of its last page some may be behind its end, and reach no medium.
 * That the end may have come nearer is told. */
SizeT within_file(ULong address, SizeT length);
void pool_may_be_cut(Pool *pool);

/* The first place from an offset on that is not in a hole of the pool's file; past its end where there is none. */
ULong pool_data_from(const Pool *pool, ULong offset);

/* Whether [start, start + length) is all of some mapping, or more. */
Bool covers_mapping(Addr start, SizeT length);

#endif
