#include "old.h"
#include "options.h"
#include "pools.h"

static UChar *kept;
static SizeT room;
static Addr kept_start;
static SizeT kept_length;

void keep_old(Addr start, SizeT length) {
    kept_length = 0;
    if (!options.base || !VG_(am_is_valid_for_client)(start, length, VKI_PROT_READ))
        return;
    if (length > room) {
        room = 2 * length + 4096;
        kept = VG_(realloc)("old.kept", kept, room);
    }
    VG_(memcpy)(kept, (const UChar *)start, length);
    kept_start = start;
    kept_length = length;
}

const UChar *find_old(Addr start, SizeT length) {
    SizeT into = start - kept_start;
    return into < kept_length && length <= kept_length - into ? kept + into : NULL;
}
