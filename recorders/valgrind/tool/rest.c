#include "rest.h"
#include "descriptors.h"

/* MOST_NUMBERS is the most that Linux can be told (PID_MAX_LIMIT). */
enum { PATH_BYTES = 64, MOST_NUMBERS = 1 << 22 };

/* The beginning of a file of the kernel; empty where there is none. */
static void read_text(const HChar *path, HChar *text, Int room) {
    SysRes opened = VG_(open)(path, VKI_O_RDONLY, 0);
    Int length = -1;
    if (!sr_isError(opened)) {
        length = VG_(read)((Int)sr_Res(opened), text, room - 1);
        VG_(close)((Int)sr_Res(opened));
    }
    text[length < 0 ? 0 : length] = '\0';
}

/* After how many numbers of threads the kernel begins anew. */
static Int read_numbers(void) {
    HChar text[16];
    read_text("/proc/sys/kernel/pid_max", text, sizeof text);
    Int numbers = (Int)VG_(strtoll10)(text, NULL);
    return numbers > 0 ? numbers : MOST_NUMBERS;
}

Bool is_numbered_before(Int kernel_thread, Int other) {
    static Int numbers;
    if (numbers == 0)
        numbers = read_numbers();
    Int ahead = other - kernel_thread;
    return (ahead < 0 ? ahead + numbers : ahead) < numbers / 2;
}

/* The letter by which the kernel says what a thread does; zero where there is no such thread any more. */
static HChar read_letter(Int descriptor) {
    HChar text[128];
    const HChar *state;
    SysRes got = VG_(pread)(descriptor, text, sizeof text - 1, 0);
    text[sr_isError(got) ? 0 : sr_Res(got)] = '\0';
    state = VG_(strrchr)(text, ')');
    return state == NULL || state[1] == '\0' || state[2] == 'Z' || state[2] == 'X' ? '\0' : state[2];
}

static HChar letter_in(Int kernel_process, Int kernel_thread) {
    HChar path[PATH_BYTES];
    VG_(sprintf)(path, "/proc/%d/task/%d/stat", kernel_process, kernel_thread);
    SysRes opened = VG_(open)(path, VKI_O_RDONLY, 0);
    if (sr_isError(opened))
        return sr_Err(opened) == VKI_ENOENT ? '\0' : 'S';
    HChar found = read_letter((Int)sr_Res(opened));
    VG_(close)((Int)sr_Res(opened));
    return found;
}

/* In state D, as while it waits for a disk, it goes on by itself. */
static Doing doing_by(HChar letter) {
    return letter == '\0' ? GONE : letter == 'R' || letter == 'D' ? RUNS_THERE : SLEEPS_THERE;
}

Doing doing_in(Int kernel_process, Int kernel_thread) {
    return doing_by(letter_in(kernel_process, kernel_thread));
}

Int open_doing(Int kernel_thread) {
    HChar path[PATH_BYTES];
    VG_(sprintf)(path, "/proc/self/task/%d/stat", kernel_thread);
    return open_reserved(path, VKI_O_RDONLY);
}

Doing doing(Int descriptor, Int kernel_thread) {
    return doing_by(descriptor >= 0 ? read_letter(descriptor) : letter_in(VG_(getpid)(), kernel_thread));
}

void pause_between_looks(Int looks) {
    struct vki_timespec shortly = {0, 50000};
    if (looks < QUICK_LOOKS)
        VG_(do_syscall)(__NR_sched_yield, 0, 0, 0, 0, 0, 0, 0, 0);
    else
        VG_(do_syscall)(__NR_nanosleep, (RegWord)&shortly, 0, 0, 0, 0, 0, 0, 0);
}

/* One that waits for a child of vfork is in state D too. */
Bool stays_asleep(Int kernel_process, Int kernel_thread) {
    enum { LOOKS = 20 };
    Int looks;
    for (looks = 0; looks < LOOKS; looks++) {
        HChar letter = letter_in(kernel_process, kernel_thread);
        if (letter == '\0' || letter == 'R')
            return False;
        pause_between_looks(QUICK_LOOKS);
    }
    return True;
}

Bool is_to_end(Int kernel_process) {
    enum { HANGUP = 1 << 0, INTERRUPT = 1 << 1, TERMINATE = 1 << 14 };
    static const HChar word[] = "\nShdPnd:\t";
    HChar path[PATH_BYTES], text[4096];
    VG_(sprintf)(path, "/proc/%d/status", kernel_process);
    read_text(path, text, sizeof text);
    const HChar *found = VG_(strstr)(text, word);
    return found != NULL && (VG_(strtoll16)(found + sizeof word - 1, NULL) & (HANGUP | INTERRUPT | TERMINATE)) != 0;
}

static Sleeping sleeping_on_futex(const UWord *arguments) {
    enum { WAIT = 0, WAKE = 1, LOCK_PI = 6, TRYLOCK_PI = 8, WAIT_BITSET = 9, WAKE_BITSET = 10, LOCK_PI2 = 13, COMMAND = 127 };
    switch (arguments[1] & COMMAND) {
    case WAIT:
    case WAIT_BITSET:
    case LOCK_PI:
    case LOCK_PI2:
        return (Sleeping){.sleeps_on = arguments[0]};
    case TRYLOCK_PI:
        return (Sleeping){0};
    case WAKE:
    case WAKE_BITSET:
        return (Sleeping){.wakes = WAKES_WORD, .woken = arguments[0]};
    default:
        return (Sleeping){.wakes = WAKES_ANYBODY};
    }
}

Sleeping sleeping(UInt call, const UWord *arguments) {
    switch (call) {
    case __NR_futex:
        return sleeping_on_futex(arguments);
    case __NR_mmap:
    case __NR_munmap:
    case __NR_mprotect:
    case __NR_madvise:
    case __NR_brk:
    case __NR_getpid:
    case __NR_gettid:
    case __NR_rt_sigprocmask:
    case __NR_set_robust_list:
    case __NR_sched_yield:
    case __NR_sched_getaffinity:
    case __NR_fstat:
    case __NR_newfstatat:
    case __NR_lseek:
    case __NR_pread64:
    case __NR_pwrite64:
    case __NR_ftruncate:
    case __NR_msync:
    case __NR_fsync:
    case __NR_fdatasync:
    case __NR_nanosleep:
    case __NR_clock_nanosleep:
        return (Sleeping){.wakes = WAKES_NOBODY};
    case __NR_kill:
    case __NR_tkill:
    case __NR_tgkill:
    case __NR_rt_sigqueueinfo:
    case __NR_rt_tgsigqueueinfo:
    case __NR_exit:
    case __NR_exit_group:
        return (Sleeping){.wakes = WAKES_ANYBODY};
    default:
        return (Sleeping){.wakes = WAKES_SLEEPERS};
    }
}
