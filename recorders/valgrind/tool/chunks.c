#include "chunks.h"

/* Room for a chunk of this number and some more. */
static void make_room(Chunks *chunks, ULong pool, SizeT number) {
    SizeT had = chunks->of_pools[pool].count, count = number + number / 2 + 8;
    void **all = VG_(realloc)(chunks->name, chunks->of_pools[pool].chunks, count * sizeof *all);
    VG_(memset)(all + had, 0, (count - had) * sizeof *all);
    chunks->of_pools[pool].chunks = all;
    chunks->of_pools[pool].count = count;
}

void *make_chunk(Chunks *chunks, ULong address) {
    ULong pool = address / POOL_SPAN;
    SizeT number = (address % POOL_SPAN) >> chunks->bits;
    if (number >= chunks->of_pools[pool].count)
        make_room(chunks, pool, number);
    return chunks->of_pools[pool].chunks[number] = VG_(calloc)(chunks->name, 1, chunks->bytes);
}

void each_chunk(Chunks *chunks, void (*act)(ULong address, void *chunk)) {
    ULong pool;
    SizeT number;
    for (pool = 0; pool < MOST_POOLS; pool++)
        for (number = 0; number < chunks->of_pools[pool].count; number++)
            if (chunks->of_pools[pool].chunks[number] != NULL)
                act(pool * POOL_SPAN + ((ULong)number << chunks->bits), chunks->of_pools[pool].chunks[number]);
}
