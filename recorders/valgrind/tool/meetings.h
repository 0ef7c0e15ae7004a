/* Where threads meet: who stored to a line last and who has loaded it since, and the instructions that were ever in a conflict. A turn
 * may end before such an access, so that what another thread does comes between a load and the store that follows it. The processes of a
 * trace have all of this in common. */
#ifndef MEETINGS_H
#define MEETINGS_H

#include "core.h"

enum { MOST_MET_LINES = 1 << 14, MOST_PLACES = 1 << 14 };

typedef struct {
    ULong line;
    UInt storer;   /* a thread of some process; 0: nobody yet */
    ULong loaders; /* since then, a bit for each; more than 64 share them */
    Addr stored_at, loaded_at;
} MetLine;

typedef struct {
    MetLine lines[MOST_MET_LINES];
    Addr places[MOST_PLACES];
    UInt place_count;
    ULong points, parted; /* accesses at which a turn could end, and did */
} Meetings;

/* Of lines that follow one another: a pool's, by trace addresses, or others of this process. */
typedef struct {
    ULong first, last;
    UInt who;
    Bool stores;
    Addr instruction;
} LineAccess;

/* Whether another thread stored to one of the lines, and this one has not loaded that; or, of a store, used it at all. */
Bool meets(const LineAccess *access);

/* Whether the instruction was ever in such a conflict. */
Bool has_met(Addr instruction);

void note_access(const LineAccess *access);
void forget_meetings(void);

#endif
