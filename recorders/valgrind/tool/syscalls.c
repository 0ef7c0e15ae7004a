#include "syscalls.h"
#include "bases.h"
#include "children.h"
#include "dirty.h"
#include "emptied.h"
#include "events.h"
#include "file_writes.h"
#include "lock.h"
#include "others.h"
#include "outcome.h"
#include "output.h"
#include "pools.h"
#include "processes.h"
#include "rest.h"
#include "robust.h"

enum { KEEPS_OLD_MAPPING = 4, PAGE_BITS = 12, SYNCHRONOUS = 4 };

SystemCounts system_counts;

/* The call that each thread is in. */
static UInt *current;

/* Calls that Valgrind takes for ones that do not wait: for a child of vfork, as system and posix_spawn have one, and for a lock of an
 * open file. */
static Bool waits_for_child(UInt call, const UWord *arguments) {
    enum { CLONE_VFORK = 0x4000 };
    return call == __NR_clone && (arguments[0] & CLONE_VFORK);
}

static Bool waits_for_open_file(UInt call, const UWord *arguments) {
    enum { OFD_SETLKW = 38 };
    return call == __NR_fcntl && arguments[1] == OFD_SETLKW;
}

/* The kernel would hold the turn with the thread while another one of this process has the lock. */
static void give_way_for_open_file(const UWord *arguments) {
    enum { OFD_GETLK = 36, UNLOCKED = 2 };
    Int looks;
    for (looks = 0; lock_is_shared() && VG_(am_is_valid_for_client)(arguments[2], sizeof(struct vki_flock), VKI_PROT_READ); looks++) {
        struct vki_flock lock = *(const struct vki_flock *)arguments[2];
        SysRes done = VG_(do_syscall)(__NR_fcntl, arguments[0], OFD_GETLK, (RegWord)&lock, 0, 0, 0, 0, 0);
        if (sr_isError(done) || lock.l_type == UNLOCKED)
            return;
        lock_gives_way();
        VG_(vg_yield)();
        pause_between_looks(looks);
    }
}

void before_call(ThreadId thread, UInt call, UWord *arguments, UInt count) {
    if (current == NULL)
        current = VG_(calloc)("syscalls.current", VG_N_THREADS, sizeof *current);
    current[thread] = call;
    settle_events();
    write_trace();
    before_file_call(thread, call, arguments);
    if (call == __NR_exit)
        note_robust_locks(thread);
    else if (call == __NR_exit_group) {
        note_exit((UInt)arguments[0]);
        note_all_robust_locks();
    }
    if (call == __NR_execve || call == __NR_execveat)
        before_execution(call == __NR_execve ? (const HChar *)arguments[0] : NULL);
    if (waits_for_open_file(call, arguments))
        give_way_for_open_file(arguments);
    lock_enters_system(call, arguments);
    if (waits_for_open_file(call, arguments) || waits_for_child(call, arguments))
        before_waiting_call();
}

void written_by_system(CorePart part, ThreadId thread, Addr start, SizeT length) {
    /* Valgrind says of each futex call that it writes the word; those that do are noted after the call */
    if ((part != Vg_CoreSysCall && part != Vg_CoreSignal) || current == NULL || current[thread] == __NR_futex)
        return;
    if (start - pools_begin >= pools_span)
        return;
    note_system_store(thread, start, length);
    ULong address;
    SizeT room;
    notes.frames += part == Vg_CoreSignal && find_in_pools(start, &address, &room);
}

/* Code that is stored to: Valgrind looks whether it has changed where it is in no file, unless it is told to look at all. */
static void look_at_code(UInt call, const UWord *arguments, Addr start) {
    ULong address;
    SizeT room;
    if ((call == __NR_mmap || call == __NR_mprotect) && (arguments[2] & VKI_PROT_EXEC) && find_in_pools(start, &address, &room))
        VG_(clo_smc_check) = CHECK_ALL_CODE;
}

static void after_mapping(UInt call, const UWord *arguments, Addr result) {
    if (call == __NR_mmap) {
        mapped(result, arguments[1], (Int)arguments[3], (Int)arguments[4], arguments[5]);
        keep_bases();
    } else if (call == __NR_munmap)
        unmapped(arguments[0], arguments[1]);
    else if (call == __NR_mremap) {
        moved(arguments[0], arguments[1], result, arguments[2], (arguments[3] & KEEPS_OLD_MAPPING) != 0);
        keep_bases();
    } else if (call == __NR_remap_file_pages) {
        ULong address;
        SizeT room;
        if (find_in_pools(arguments[0], &address, &room))
            system_counts.cut_files++;
        unmapped(arguments[0], arguments[1]);
    }
}

static void synchronized_range(ThreadId thread, Addr start, SizeT length) {
    ULong address;
    SizeT room, piece;
    length = VG_PGROUNDUP(length);
    for (; length > 0; start += piece, length -= piece) {
        piece = 1 << PAGE_BITS;
        if (find_in_pools(start, &address, &room)) {
            piece = room < length ? room : length;
            note_synchronized(thread, address, address + piece);
        }
    }
}

static void synchronized_file(ThreadId thread, const Pool *pool) {
    if (pool != NULL)
        note_synchronized(thread, pool_address(pool, 0), pool_address(pool, POOL_SPAN));
}

static void after_synchronizing(ThreadId thread, UInt call, const UWord *arguments) {
    Int number;
    if (call == __NR_msync && (arguments[2] & SYNCHRONOUS))
        synchronized_range(thread, arguments[0], arguments[1]);
    else if (call == __NR_fsync || call == __NR_fdatasync) {
        synchronized_file(thread, pool_of((Int)arguments[0]));
        other_is_saved((Int)arguments[0]);
    } else if (call == __NR_sync || call == __NR_syncfs)
        for (number = 0; pool_numbered(number) != NULL; number++)
            synchronized_file(thread, pool_numbered(number));
}

/* The calls on futexes by which the system writes a word: locks that inherit priority, and a wake with an operation. */
static void after_futex(ThreadId thread, const UWord *arguments) {
    enum { WAKE_OP = 5, LOCK_PI = 6, UNLOCK_PI = 7, TRYLOCK_PI = 8, WAIT_REQUEUE_PI = 11, CMP_REQUEUE_PI = 12, LOCK_PI2 = 13, COMMAND = 127 };
    UWord command = arguments[1] & COMMAND;
    if (command == LOCK_PI || command == UNLOCK_PI || command == TRYLOCK_PI || command == LOCK_PI2)
        note_system_store(thread, arguments[0], sizeof(UInt));
    else if (command == WAKE_OP || command == WAIT_REQUEUE_PI || command == CMP_REQUEUE_PI)
        note_system_store(thread, arguments[4], sizeof(UInt));
}

/* What calls write to memory besides, and Valgrind does not tell of: the lengths of what they answer, and the second half of what
 * capget does. */
static void after_answering(ThreadId thread, UInt call, const UWord *arguments) {
    enum { FIRST_VERSION = 0x19980330, HALF = 12 };
    switch (call) {
    case __NR_accept:
    case __NR_accept4:
    case __NR_getsockname:
    case __NR_getpeername:
        if (arguments[1] != 0)
            note_system_store(thread, arguments[2], sizeof(UInt));
        break;
    case __NR_getsockopt:
        note_system_store(thread, arguments[4], sizeof(UInt));
        break;
    case __NR_recvfrom:
        if (arguments[4] != 0)
            note_system_store(thread, arguments[5], sizeof(UInt));
        break;
    case __NR_capget:
        if (arguments[1] != 0 && *(const UInt *)arguments[0] != FIRST_VERSION)
            note_system_store(thread, arguments[1] + HALF, HALF);
        break;
    default:
        break;
    }
}

static void count_unseen(UInt call, const UWord *arguments) {
    if (!had_pools())
        return;
    if (call == __NR_io_submit || call == 426 /* io_uring_enter */ || call == __NR_process_vm_writev)
        system_counts.unseen_writes++;
}

void after_call(ThreadId thread, UInt call, UWord *arguments, UInt count, SysRes result) {
    take_process_turn();
    lock_leaves_system();
    if (sr_isError(result)) {
        forget_emptied(thread);
        if (call == __NR_execve || call == __NR_execveat)
            execution_failed();
        return;
    }
    after_mapping(call, arguments, (Addr)sr_Res(result));
    look_at_code(call, arguments, call == __NR_mmap ? (Addr)sr_Res(result) : arguments[0]);
    after_file_call(thread, call, arguments, (ULong)sr_Res(result));
    after_synchronizing(thread, call, arguments);
    after_answering(thread, call, arguments);
    if (call == __NR_futex)
        after_futex(thread, arguments);
    else if (call == __NR_set_robust_list)
        robust_list_set(thread, arguments[0]);
    count_unseen(call, arguments);
}
