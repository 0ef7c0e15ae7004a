"""Threads under pmtrim-record: that they meet by the seed, at what cost, and their numbers. The programs are the kinds of threads.c."""
import pathlib
import re
import resource
import subprocess
import time

from recording import events_of
from valgrind_runs import RECORD, Recorded, drawn

SAVE_EVENTS = 3
KERNEL = pathlib.Path("/proc/sys/kernel")


def switches_of(events):
    numbers = [fields[1] for fields in events]
    return sum(one != other for one, other in zip(numbers, numbers[1:]))


def told_switches(faults):
    found = re.search(r" events? of (\d+) threads?.*, (\d+) switch(?:es)? between threads", faults)
    return tuple(map(int, found.groups())) if found else None


def leave_numbers(left):
    """Has the kernel begin its numbers of threads anew after so many, where it may be told to."""
    last = int((KERNEL / "pid_max").read_text()) - left
    try:
        (KERNEL / "ns_last_pid").write_text(str(last))
    except OSError:
        print("threads are not numbered anew: the kernel may not be told to")


class Threads(Recorded):
    """Runs of several threads."""

    def setUp(self):
        super().setUp()
        self.threads, self.pool = self.build("threads"), self.folder / "threads.pool"

    def record_all(self, kind, threads, times, *options, accepted=False):
        self.pool.unlink(missing_ok=True)
        words = [self.threads, kind, self.pool, threads, times]
        trace, status, told, faults = self.record(f"threads.{kind}", words, *options, accepted=accepted)
        self.expect(f"{kind}: its status", status == 0, faults)
        return events_of(trace), told, faults

    def test_threads_meet(self):
        """Threads under a lock go on between each other's saves, and how often is told."""
        for kind, threads in (("locked", 4), ("spun", 3), ("free", 4), ("calls", 6)):
            events, _, faults = self.record_all(kind, threads, 150, accepted=kind == "locked")
            found = switches_of(events)
            self.expect(f"{kind}: all is recorded", len(events) == SAVE_EVENTS * threads * 150, len(events))
            self.expect(f"{kind}: threads meet", found > 40, found)
            self.expect(f"{kind}: it is told", told_switches(faults) == (threads, found), faults)
            self.expect(f"{kind}: no warning", "ran one after another" not in faults, faults)
        again = [drawn(lambda: self.record_all("locked", 4, 150, "--seed", seed))[0] for seed in (7, 7, 8)]
        self.expect("a lock: one seed, one run", again[0] == again[1] != again[2], "they differ, or not")

    def test_fault_of_a_log_is_met(self):
        """The fault that shows only where another thread comes between two appends."""
        found = [int(self.record_all("log", 2, 60, "--seed", seed)[1]) for seed in range(1, 4)]
        self.expect("a log under a lock: its fault", max(found) > 0, found)

    def test_one_seed_where_threads_wake_each_other(self):
        """Whom a call has woken counts among those that may be next, whenever it comes: one seed, one run."""
        texts = [drawn(lambda: self.record_all("piped", 12, 60, "--seed", 3))[0] for _ in range(6)]
        self.expect("threads that wake each other: one seed, one run", all(text == texts[0] for text in texts), "they differ")
        self.expect("threads that wake each other: all is recorded", len(texts[0]) == SAVE_EVENTS * 12 * 60, len(texts[0]))

    def test_one_seed_where_threads_are_numbered_anew(self):
        """The kernel's numbers of threads begin anew before, while and after a program starts some: one seed, one run."""
        texts = []
        for left in range(2, 18, 2):
            leave_numbers(left)
            texts.append(drawn(lambda: self.record_all("locked", 4, 40, "--seed", 7))[0])
        self.expect("threads that are numbered anew: one seed, one run", all(text == texts[0] for text in texts), "they differ")

    def test_numbers_are_free_again(self):
        """A number is free again when its thread has ended without an open flush."""
        events, _, faults = self.record_all("short", 1000, 1)
        self.expect("1000 threads", len(events) == SAVE_EVENTS * 1000 - 1 and {fields[1] for fields in events} == {"0"}, len(events))
        told = told_switches(faults)
        self.expect("1000 threads: told", told == (1000, 999) and "the threads ran one after another" in faults, faults)
        events, _, faults = self.record_all("window", 300, 1)
        self.expect("threads before the window", [fields[:2] for fields in events] == [["store", "0"], ["clwb", "0"], ["sfence", "0"]], events)
        self.expect("threads before the window: told", "events before the window: 900" in faults, faults)

    def seconds(self, words):
        """How long a run takes: by the clock, and of the processor."""
        start, before = time.monotonic(), resource.getrusage(resource.RUSAGE_CHILDREN)
        subprocess.run([str(word) for word in words], check=True, capture_output=True)
        after = resource.getrusage(resource.RUSAGE_CHILDREN)
        return time.monotonic() - start, after.ru_utime + after.ru_stime - before.ru_utime - before.ru_stime

    def costs_less(self, name, words, other, times):
        """A run takes less than so many times as long as the other one, by both measures. Programs beside these slow one of two runs as well
        as the other, so one of five pairs is enough."""
        found = []
        for _ in range(5):
            plain, took = self.seconds(other), self.seconds(words)
            found.append(max(one / of for one, of in zip(took, plain)))
            if found[-1] < times:
                break
        self.expect(name, min(found) < times, found)

    def test_cost_is_as_expected(self):
        """Many threads that could all run, a line that is never safe and many that are saved at once cost about what is to be expected."""
        record = [RECORD, "--trace", self.folder / "many.trace"]
        words = [self.threads, "barrier", self.pool, 128, 1]
        self.costs_less("128 threads at a barrier", [*record, *words], ["valgrind", "--tool=none", "-q", "--fair-sched=yes", *words], 5)
        words = [self.threads, "free", self.pool, 64, 125]
        self.costs_less("64 threads without a lock", [*record, *words], [*record, "--switch-every", 0, *words], 5)
        saves = lambda events: [*record, self.threads, "free", self.pool, 1, events // SAVE_EVENTS]
        for options in ([], ["--events", "1000000-"]):
            words = [*record, *options, self.threads, "hot", self.pool, 1, 100000]
            self.costs_less(f"a line that is never safe {options}, against as many events of lines that are", words, saves(200000), 5)
        words = [*record, self.threads, "synced", self.pool, 1, 32000]
        self.costs_less("32,000 lines that one call saves, against as many events of single saves", words, saves(64000), 3)
