#include "robust.h"
#include "events.h"
#include "pools.h"

/* As futex.h of the kernel has them. */
enum { OWNER = 0x3fffffff, OWNER_DIED = 0x40000000, MOST_LOCKS = 2048 };
#define WAITERS 0x80000000u

/* struct robust_list_head: the first entry of a list that ends where it began, the distance from an entry to its lock, and the entry
 * of a lock that was just being taken or given back. The lowest bit of an entry is no part of its address. */
typedef struct {
    Addr first;
    Word distance;
    Addr pending;
} Head;

/* Where the list of a thread begins, and the number by which its locks name it. */
typedef struct {
    Addr head;
    UInt owner;
} Owner;

static Owner *owners;

void robust_list_set(ThreadId thread, Addr head) {
    if (owners == NULL)
        owners = VG_(calloc)("robust.owners", VG_N_THREADS, sizeof *owners);
    owners[thread] = (Owner){head, (UInt)VG_(gettid)()};
}

static Bool is_readable(Addr place, SizeT length) {
    return VG_(am_is_valid_for_client)(place, length, VKI_PROT_READ);
}

static void note_lock(ThreadId thread, UInt owner, Addr lock) {
    ULong address;
    SizeT room;
    if (lock % sizeof(UInt) != 0 || !find_in_pools(lock, &address, &room) || !is_readable(lock, sizeof(UInt)))
        return;
    UInt value = *(const volatile UInt *)lock, marked = (value & WAITERS) | OWNER_DIED;
    if ((value & OWNER) == owner)
        note_bytes(thread, address, (const UChar *)&marked, sizeof marked);
}

void note_robust_locks(ThreadId thread) {
    Owner owner = owners == NULL ? (Owner){0, 0} : owners[thread];
    const Head *head = (const Head *)owner.head;
    Addr pending, entry;
    Int count;
    if (owner.head == 0 || !is_readable(owner.head, sizeof *head))
        return;
    owners[thread] = (Owner){0, 0};
    pending = head->pending & ~(Addr)1;
    entry = head->first & ~(Addr)1;
    for (count = 0; entry != owner.head && count < MOST_LOCKS && is_readable(entry, sizeof(Addr)); count++) {
        if (entry != pending)
            note_lock(thread, owner.owner, entry + (Addr)head->distance);
        entry = *(const Addr *)entry & ~(Addr)1;
    }
    if (pending != 0)
        note_lock(thread, owner.owner, pending + (Addr)head->distance);
}

void note_all_robust_locks(void) {
    ThreadId thread;
    for (thread = 1; owners != NULL && thread < VG_N_THREADS; thread++)
        note_robust_locks(thread);
}
