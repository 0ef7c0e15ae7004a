/* Memory for each part of the pools, by trace addresses: a chunk for so many bytes of a pool, of zeros until it is written to. */
#ifndef CHUNKS_H
#define CHUNKS_H

#include "core.h"
#include "pools.h"

typedef struct {
    UInt bits;         /* a chunk is for 1 << bits bytes */
    SizeT bytes;       /* of a chunk */
    const HChar *name; /* for Valgrind's statistics */
    struct {
        void **chunks;
        SizeT count;
    } of_pools[MOST_POOLS];
} Chunks;

void *make_chunk(Chunks *chunks, ULong address);

/* The chunk of an address; NULL where there is none and it is not to be made. */
static inline void *chunk_at(Chunks *chunks, ULong address, Bool made) {
    ULong pool = address / POOL_SPAN;
    SizeT number = (address % POOL_SPAN) >> chunks->bits;
    if (number < chunks->of_pools[pool].count && chunks->of_pools[pool].chunks[number] != NULL)
        return chunks->of_pools[pool].chunks[number];
    return made ? make_chunk(chunks, address) : NULL;
}

/* Calls for each chunk that there is, by the first address that it is for. */
void each_chunk(Chunks *chunks, void (*act)(ULong address, void *chunk));

#endif
