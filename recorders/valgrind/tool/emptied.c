#include "emptied.h"
#include "events.h"

enum { WORD = 8, WHOLE = 0xff, PIECE = 1 << 16 };

/* Words of a file that follow one another and have the same bytes that are not zero. */
typedef struct {
    ULong first, count;
    UChar bytes; /* a bit for each of a word */
} Run;

/* Of a thread's call. */
typedef struct {
    const Pool *pool;
    XArray *runs;
} Emptied;

static Emptied *of_threads;

static Emptied *emptied_by(ThreadId thread) {
    if (of_threads == NULL)
        of_threads = VG_(calloc)("emptied", VG_N_THREADS, sizeof *of_threads);
    if (of_threads[thread].runs == NULL)
        of_threads[thread].runs = VG_(newXA)(VG_(malloc), "emptied.runs", VG_(free), sizeof(Run));
    return &of_threads[thread];
}

static void add_word(XArray *runs, ULong word, UChar bytes) {
    Word count = VG_(sizeXA)(runs);
    Run *last = count > 0 ? VG_(indexXA)(runs, count - 1) : NULL, added = {word, 1, bytes};
    if (last != NULL && last->bytes == bytes && last->first + last->count == word)
        last->count++;
    else
        VG_(addToXA)(runs, &added);
}

/* The bits of the bytes that are not zero, from one place in a word to another. */
static UChar bits_of(const UChar *word, UInt from, UInt end) {
    UChar bits = 0;
    for (; from < end; from++)
        bits |= (UChar)((word[from] != 0) << from);
    return bits;
}

void find_emptied(ThreadId thread, const Pool *pool, ULong from, ULong end) {
    static ULong words[PIECE / WORD];
    const UChar *bytes = (const UChar *)words;
    Emptied *emptied = emptied_by(thread);
    ULong at = from / WORD * WORD;
    forget_emptied(thread);
    emptied->pool = pool;
    if (end > POOL_SPAN && from < end) {
        pool_counts.too_far += pool_data_from(pool, POOL_SPAN) > POOL_SPAN;
        end = POOL_SPAN;
    }
    for (at = pool_data_from(pool, at); at < end; at = pool_data_from(pool, at + PIECE)) {
        SizeT place;
        at = at / WORD * WORD;
        VG_(memset)(words, 0, sizeof words);
        read_pool(pool, at, words, end - at < PIECE ? (SizeT)(end - at) : PIECE);
        for (place = 0; place < PIECE; place += WORD) {
            ULong word = at + place;
            if (words[place / WORD] != 0 && word + WORD > from)
                add_word(emptied->runs, word / WORD, bits_of(bytes + place, word < from ? (UInt)(from - word) : 0, WORD));
        }
    }
}

/* The bytes of one word that were not zero, run by run. */
static void note_word(ThreadId thread, ULong address, UChar bytes) {
    static const UChar zeros[WORD];
    UInt at = 0;
    while (at < WORD) {
        UInt from = at;
        while (at < WORD && (bytes >> at & 1))
            at++;
        if (at > from)
            note_bytes(thread, address + from, zeros, at - from);
        else
            at++;
    }
}

static void note_run(ThreadId thread, const Pool *pool, Run run) {
    static const UChar zeros[PIECE];
    ULong address = pool_address(pool, run.first * WORD), length = run.count * WORD;
    for (; run.bytes != WHOLE && length > 0; address += WORD, length -= WORD)
        note_word(thread, address, run.bytes);
    while (length > 0) {
        SizeT piece = length < PIECE ? (SizeT)length : PIECE;
        note_bytes(thread, address, zeros, piece);
        address += piece;
        length -= piece;
    }
}

void note_emptied(ThreadId thread) {
    Emptied *emptied = emptied_by(thread);
    Word at;
    for (at = 0; at < VG_(sizeXA)(emptied->runs); at++)
        note_run(thread, emptied->pool, *(Run *)VG_(indexXA)(emptied->runs, at));
    forget_emptied(thread);
}

void forget_emptied(ThreadId thread) {
    XArray *runs = emptied_by(thread)->runs;
    VG_(dropTailXA)(runs, VG_(sizeXA)(runs));
}
