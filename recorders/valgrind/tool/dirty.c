#include "dirty.h"
#include "chunks.h"
#include "common.h"
#include "options.h"

/* A chunk has a bit for each line of 2 MiB: a page of bits. Those of one trace of several processes are in common. */
enum { CHUNK_BITS = 21, CHUNK_LINES = (1 << CHUNK_BITS) / LINE_BYTES };

typedef struct {
    ULong words[CHUNK_LINES / 64];
} Chunk;

static Chunks own = {.bits = CHUNK_BITS, .bytes = sizeof(Chunk), .name = "dirty.chunk"};

static SizeT chunk_count(Int pool) {
    return options.one_trace ? common_pages(pool) : own.of_pools[pool].count;
}

/* NULL where there is none and it is not to be made, or can't be. */
static Chunk *lines_at(ULong address, Bool made) {
    tl_assert(sizeof(Chunk) == COMMON_PAGE);
    if (!options.one_trace)
        return chunk_at(&own, address, made);
    return common_page((Int)(address / POOL_SPAN), (address % POOL_SPAN) >> CHUNK_BITS, made);
}

void mark_dirty(ULong address) {
    SizeT line = (address % (1 << CHUNK_BITS)) / LINE_BYTES;
    Chunk *chunk = lines_at(address, True);
    if (chunk != NULL)
        chunk->words[line / 64] |= 1ULL << (line % 64);
    else
        end_trace("its file FILE.shared can't become longer");
}

/* Takes the first bit of a chunk from a line on; CHUNK_LINES if there is none. */
static SizeT take_bit(Chunk *chunk, SizeT line) {
    while (line < CHUNK_LINES) {
        ULong rest = chunk->words[line / 64] >> (line % 64);
        if (rest != 0) {
            line += (SizeT)__builtin_ctzll(rest);
            chunk->words[line / 64] &= ~(1ULL << (line % 64));
            return line;
        }
        line = (line / 64 + 1) * 64;
    }
    return CHUNK_LINES;
}

ULong take_dirty(ULong from, ULong end) {
    SizeT count = chunk_count((Int)(from / POOL_SPAN));
    ULong base = from / POOL_SPAN * POOL_SPAN, at = from - base;
    for (; base + at < end && at >> CHUNK_BITS < count; at = ((at >> CHUNK_BITS) + 1) << CHUNK_BITS) {
        Chunk *chunk = lines_at(base + at, False);
        if (chunk == NULL)
            continue;
        SizeT line = (at % (1 << CHUNK_BITS)) / LINE_BYTES, found = take_bit(chunk, line);
        ULong address = base + (at >> CHUNK_BITS << CHUNK_BITS) + found * LINE_BYTES;
        if (found == CHUNK_LINES)
            continue;
        if (address >= end) {
            mark_dirty(address);
            return end;
        }
        return address;
    }
    return end;
}
