/* What is not safe yet: the stores to each line that no flush and fence have made safe, and the flushes that their threads have not
 * fenced since. It is followed at each event, recorded or not, so that a window begins with it. One trace of several processes has no
 * windows, and nothing is followed there. */
#ifndef PENDING_H
#define PENDING_H

#include "core.h"

/* A store within one line. `old` is what stood there before; NULL where that is not known. */
typedef struct {
    ThreadId thread;
    ULong address;
    const UChar *bytes, *old;
    SizeT length;
    Addr instruction;
    Bool written; /* it stands in the trace */
} FollowedStore;

void follow_store(const FollowedStore *store); /* a store of each of its words */
void follow_flush(ThreadId thread, ULong line, Addr instruction, Bool written);
/* A flush that needs no fence (clflush). */
void follow_full_flush(ULong line);
void follow_fence(ThreadId thread);

/* All is forgotten: the process is a copy of its parent. */
void forget_pending(void);

/* Nothing of what is pending stands in the trace any more. */
void unwrite_pending(void);

/* What a window begins with. */
typedef struct {
    enum { CARRIED_STORE, CARRIED_FLUSH } kind;
    ULong sequence, address;
    Addr instruction;
    UInt serial;     /* of the thread that stored */
    ThreadId thread; /* that flushed; invalid if it has ended, under `number` */
    Int number;
    const UChar *bytes, *old; /* of a store */
    SizeT length;
} Carried;

/* Each pending store and open flush that does not stand in the trace, in order, which is taken for written now. NULL where there are
 * more than `most`. To be freed. */
Carried *take_carried(SizeT *count, SizeT most);

/* Whether a thread of this number fenced, since the last window closed, a flush that stands in the trace. Then that is forgotten. */
Bool take_fenced(Int number);

/* What else became safe since then, line by line: its bytes that were stored meanwhile. All that stands of the line in the trace is
 * safe. */
void take_made_safe(void (*tell)(ULong line, const UChar *bytes, ULong mask));

/* How many stores were not followed any more, as too many were not safe. */
extern ULong unfollowed_stores;

#endif
