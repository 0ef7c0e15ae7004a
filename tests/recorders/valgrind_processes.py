"""Processes under pmtrim-record that share a pool and write one trace (--one-trace). The programs are the kinds of processes.c."""
import collections
import re

from checks import add_tests
from recording import events_of, rebuilt, text_of
from running import run
from valgrind_runs import RECORD, Recorded

LINE, WORD = 64, 8
RECORDS, LINES = 3 * LINE, (3 + 4096) * LINE


def value_of(fields):
    return int.from_bytes(bytes.fromhex(fields[3]), "little")


class Processes(Recorded):
    """Runs of several processes, each of which leaves one trace."""

    def setUp(self):
        super().setUp()
        self.processes, self.pool = self.build("processes", "-Wno-unused-result"), self.folder / "processes.pool"

    def record_all(self, kind, children, times, *options, **more):
        """The trace, its events and what was told, of a run that ends by status 0 and leaves nothing behind."""
        self.pool.unlink(missing_ok=True)
        words = [self.processes, kind, self.pool, children, times]
        trace, status, _, faults = self.record(f"processes.{kind}.{children}", words, "--one-trace", *options, **more)
        self.expect(f"{kind} of {children}: its status", status == 0, faults)
        beside = sorted(path.name for path in self.folder.iterdir() if path.name.startswith(f"{trace.name}."))
        self.expect(f"{kind} of {children}: nothing else is left", set(beside) <= {f"{trace.name}.{ending}" for ending in ("labels", "cut", "missing")}, beside)
        return trace, events_of(trace), faults

    def is_file(self, what, trace):
        last = self.pool.read_bytes()
        self.expect(f"{what}: the file", any(last) and rebuilt(trace, bytes(len(last))) == last, "it differs")

    def log(self, what, events, last):
        """The order of the log is that of its stores: each record comes before the length that counts it, by the same thread."""
        lengths = [(place, fields) for place, fields in enumerate(events) if fields[0] == "store" and fields[2] == "0x0"]
        values = [value_of(fields) for _, fields in lengths]
        self.expect(f"{what}: the lengths", values == list(range(1, last + 1)), f"{len(values)} of {last}")
        stores = {fields[2]: (place, fields) for place, fields in enumerate(events) if fields[0] == "store"}
        writers = collections.defaultdict(set)
        for at, (place, fields) in enumerate(lengths):
            before, record = stores.get(f"{RECORDS + at * LINE:#x}", (place, fields))
            self.expect(f"{what}: record {at}", before < place and record[1] == fields[1], f"{before} {place} {record}")
            writers[value_of(record)].add(fields[1])
        return writers

    def share(self, row, times=40):
        kind, children = row
        what = f"{kind} of {children}"
        trace, events, faults = self.record_all(kind, children, times)
        self.is_file(what, trace)
        writers = self.log(what, events, (children + 1) * times)
        numbers = [thread for threads in writers.values() for thread in threads]
        told = set(writers) == set(range(children + 1)) and len(numbers) == len(set(numbers)) == children + 1
        self.expect(f"{what}: threads are told apart", told, dict(writers))
        acting = [fields[1] for fields in events]
        switches = sum(one != other for one, other in zip(acting, acting[1:]))
        # One after another they would switch as often as there are children.
        self.expect(f"{what}: processes meet", switches > children, switches)
        found = re.search(r"(\d+) events of (\d+) threads of (\d+) processes in .*, (\d+) switches", faults)
        wanted = (len(events), children + 1, children + 1, switches)
        self.expect(f"{what}: it is told", found and tuple(map(int, found.groups())) == wanted, f"{wanted} {faults}")
        self.expect(f"{what}: nothing is missing", "not recorded" not in faults and "killed while" not in faults, faults)
        labels = text_of(trace.with_name(f"{trace.name}.labels")).splitlines()
        right = [line.split(" ", 2)[0] for line in labels] == [str(number) for number in range(1, len(events) + 1)]
        self.expect(f"{what}: labels", right and all("processes.c:" in line for line in labels), labels[:2])
        verdicts = re.findall(r"^ordered \d+ (\w+)$", self.report(trace)[1], re.M)
        self.expect(f"{what}: its claims", verdicts == ["pass"] * (children + 1) * times, set(verdicts))
        self.is_cut(what, trace, None)

    def test_base_of_a_shared_file(self):
        """A pool that a child maps first has a base, and --file takes what a child writes."""
        folder = self.folder / "shared"
        folder.mkdir()
        pool = folder / "log"
        pool.write_bytes(b"before")
        trace = self.folder / "written.trace"
        words = ["--one-trace", "--base", f"--file={pool}", "--trace", trace]
        writes = f"printf one >> {pool}; (printf two >> {pool}; sync {pool}); printf three >> {pool}"
        status, _, faults = run([RECORD, *words, "sh", "-c", writes])
        base = trace.with_name(f"{trace.name}.base").read_bytes()
        last = rebuilt(trace, base)
        self.expect("a shared file: its base", status == 0 and base == b"before" + bytes(11), f"{base} {faults}")
        self.expect("a shared file: what is written", last == pool.read_bytes() == b"beforeonetwothree", last)
        flushed = [" ".join(fields[::2]) for fields in events_of(trace) if fields[0] in ("clwb", "sfence")]
        self.expect("a shared file: what is synchronized", flushed == ["clwb 0x0", "sfence"], flushed)

    def test_others_go_on_when_one_is_killed(self):
        """A process that is killed, at some time while it has the turn: the others go on, and at most its last store is missing."""
        self.expect("killed while it ran: told", any(self.killed_once() for _ in range(6)), "it was never so")

    def killed_once(self):
        trace, events, faults = self.record_all("killed", 3, 40)
        last, place = self.pool.read_bytes(), LINES + LINE
        again = bytearray(rebuilt(trace, bytes(len(last))))
        stored = int.from_bytes(again[place : place + WORD], "little")
        missing = int.from_bytes(last[place : place + WORD], "little") - stored
        again[place : place + WORD] = last[place : place + WORD]
        self.expect("killed: the file", bytes(again) == last and missing in (0, 1) and stored > 100, (missing, stored))
        self.log("killed", events, 3 * 40)
        values = [value_of(fields) for fields in events if fields[0] == "store" and fields[2] == f"{place:#x}"]
        self.expect("killed: its stores", values == list(range(1, stored + 1)), len(values))
        return "1 process was killed while it ran; the last thing that it did may be missing" in faults

    def test_numbers_are_given_again(self, children=260):
        """What processes that were killed had of numbers is given again."""
        trace, events, _ = self.record_all("die", children, 1)
        self.is_file("die", trace)
        saved = [fields[2] for fields in events if fields[0] == "store" and int(fields[2], 16) > LINES]
        self.expect("die: all are recorded", saved == [f"{LINES + LINE * number:#x}" for number in range(1, children + 1)], len(saved))
        self.is_cut("die", trace, None)

    def test_a_child_that_outlives_the_first(self):
        trace, events, faults = self.record_all("outlives", 1, 1)
        stores = [fields[2] for fields in events if fields[0] == "store" and int(fields[2], 16) >= LINES]
        why = "the first process ended here, and 1 other went on"
        self.expect("outlives: what is recorded", stores == [f"{LINES:#x}"], stores)
        self.expect("outlives: told", f"the trace ends after event {len(events)}: {why}\n" in faults, faults)
        self.is_cut("outlives", trace, f"{len(events)} {why}\n")
        missing = re.search(r"process \d+; not recorded: events after the end of the trace: 3\n", faults)
        self.expect("outlives: what the child does is told", missing, faults)

    def test_at_most_256_threads(self):
        trace, events, faults = self.record_all("crowd", 2, 150)
        numbers = {fields[1] for fields in events}
        told = "a trace has at most 256 threads at one time, and here is the 257th"
        self.expect("257 threads of two processes", numbers == {str(number) for number in range(256)} and told in faults, faults)
        self.is_cut("257 threads of two processes", trace, f"{len(events)} {told}\n")

    def test_options_that_do_not_fit(self):
        for words, told in (
            (["--start-after", "main"], "--one-trace has no windows"),
            (["--events", "2-"], "--one-trace has no windows"),
            (["--pmdk"], "--one-trace and --pmdk don't go together"),
        ):
            status, _, faults = run([RECORD, "--one-trace", *words, self.processes, "forks", self.pool, 1, 1])
            self.expect(f"--one-trace with {words[0]}", status == 2 and told in faults, f"{status} {faults}")
        _, events, faults = self.record_all("window", 1, 1)
        stores = [fields[2] for fields in events if fields[0] == "store" and int(fields[2], 16) >= LINES]
        self.expect("a window: all is recorded", stores == [f"{LINES:#x}", f"{LINES + WORD:#x}"], stores)
        told = "windows that the program asked for, which one trace of several processes has not: 2" in faults
        self.expect("a window: told", told, faults)


SHARED = {f"{kind}_of_{children}": (kind, children) for kind in ("forks", "execs") for children in (2, 5)}
add_tests(Processes, Processes.share, SHARED)
