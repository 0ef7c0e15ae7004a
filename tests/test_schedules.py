"""pmtrim-record: a turn ends before an access, so that seeds find races natively rare; programs with locks stay right, code that is left and
begun again does what it did, and nothing waits for ever without a word."""
import os
import re
import resource
import signal
import subprocess
import time

from checks import Checks, add_tests
from needs import need, need_recorder
from program import TOP
from recorded import Recorded
from recording import events_of
from running import run
from screened import VERDICTS
from valgrind_runs import FOLDER, RECORD

SOURCES = TOP / "tests/recorders/schedules"
# The program's kind, how often, how many seeds and how many of these find it at least. Natively none does at so few turns.
FOUND = {
    "lost": ("lost", 100, 5, 4),
    "reader": ("reader", 100, 5, 4),
    "stack": ("stack", 50, 8, 2),
    "copied": ("copied", 20, 3, 2),
}
# What is written, line by line, and to which addresses of the pool is stored.
SPAWNED, LOCKED = (["one 0 3", ""], ["0x0"]), (["has it", ""], ["0x40", "0x80"])
ENDING = {
    "spawn": ("spawn", "--one-trace", *SPAWNED),
    "file": ("file", "--one-trace", *LOCKED),
    "threads": ("threads", "--one-trace", *LOCKED),
    "threads of a process": ("threads", "--one-trace=no", *LOCKED),
}
TABLE = "create table t(a,b); with recursive c(x) as (select 1 union all select x+1 from c where x<99) insert into t select x, x*1.5 from c; "
EACH = {
    "ls": ["ls", "-l", "/usr/lib"],
    "gzip": ["gzip", "-c", TOP / "recorders/valgrind/LICENSE"],
    "sqlite3": ["sqlite3", ":memory:", TABLE + "create index i on t(b); select sum(a), avg(b) from t where b>7.25; select * from t where a%7=5;"],
    "awk": ["awk", "BEGIN { for (i = 1; i < 200; i++) s += log(i) / sqrt(i); printf \"%.12g %s\\n\", s, substr(\"abc\", 2) }"],
}


def explained(told):
    """What `explain` wrote, below the number that each run of a program wrote."""
    return re.sub(r"\A(\d+\n)+", "", told)


class Raced(Recorded):
    """Runs of races.c."""

    def setUp(self):
        super().setUp()
        self.races = self.build(SOURCES / "races.c")

    def race(self, kind, times, seed, *options):
        return self.record("--labels", "no", "--seed", seed, *options, self.races, kind, self.pool, times)


class Races(Raced):
    """Seeds find what natively is rare."""

    def finds(self, row):
        kind, times, seeds, wanted = row
        found = [seed for seed in range(1, seeds + 1) if int(self.race(kind, times, seed).out) > 0]
        self.expect(f"{kind}: seeds that find it", len(found) >= wanted, found)

    def test_one_seed(self):
        """The same seed gives the same run, and its trace has each store."""
        for kind, times, seed in (("lost", 60, 1), ("stack", 20, 4), ("crowd", 6, 2)):
            runs = [(self.race(kind, times, seed).out, self.trace.read_text()) for _ in range(2)]
            self.is_file(kind)
            self.expect(f"{kind}: one seed, one run", runs[0] == runs[1], "they differ")

    def test_without(self):
        """With --switch-every 0 a thread goes on until it waits, and that is told; the rate may be chosen."""
        done = self.race("lost", 100, 1, "--switch-every", 0)
        self.expect_equal("no turn ends", done.out, "0\n")
        self.expect("no turn ends: told", "no turn could end before an access: with --switch-every 0" in done.err, done.err)
        done = self.race("lost", 100, 1, "--switch-every", 1)
        ended, met = map(int, re.search(r"turns ended before (\d+) of (\d+) accesses", done.err).groups())
        self.expect("each turn ends", ended == met > 100, done.err)

    def test_seeds(self):
        """The last lines of several seeds: a table, how many accesses could be parted, or that there is one thread, and what to type next."""
        record = lambda *words: run([RECORD, "--seeds", 2, "--trace", self.folder / "some", *words]).err.splitlines()[-5:]
        head, first, second, told, after = record(self.races, "right", self.pool, 4)
        self.expect_equal("the table", head.split(), ["seed", "events", "meetings", "failed"])
        rows = [line.split() for line in (first, second)]
        self.expect("its rows", [row[0] for row in rows] == ["1", "2"] and all(int(row[2]) > 20 and row[3] == "0" for row in rows), rows)
        self.expect("two seeds", re.fullmatch(r"pmtrim-record: turns could end before an access in 2 of 2 seeds, before \d+ to \d+ accesses", told), told)
        words = f"--labels {self.folder / 'some'}.1.labels {self.folder / 'some'}.1"
        self.expect_equal("the next command", after, f"pmtrim-record: next: pmtrim explain {words}")
        told = record("--file", self.pool, "sh", "-c", f"echo > {self.pool}")[3]
        self.expect_equal("one thread", told, "pmtrim-record: the program has one thread in the trace: a seed changes nothing")

    def test_explained(self):
        """Recorded and explained in one step; of seeds it is the first in which a claim fails, and its status is that of the answer."""
        done = run([RECORD, "--explain", "--trace", self.folder / "one", self.races, "right", self.pool, 4])
        told = next((word for word, text in VERDICTS.items() if explained(done.out).startswith(text)), "fail")
        self.expect("one run", told != "fail" and done.status == int(told in ("lost", "suspect")), done.out[:300] + done.err)
        done = run([RECORD, "--seeds", 3, "--explain", "--trace", self.folder / "some", self.races, "claim", self.pool, 40])
        found = re.search(r"claims fail by seed (\d); next: pmtrim explain .*/some\.(\d)\n", done.err)
        self.expect("seeds: the first that fails", found and found[1] == found[2] and done.status == 1, done.err)
        self.expect("seeds: its explanation", explained(done.out).startswith("FAIL: ") and "isPersist at races.c:" in " ".join(done.out.split()), done.out[:300])


class Right(Raced):
    """What is right stays right, by every kind of schedule."""

    def keeps_right(self, kind):
        for seed in (1, 2, 4, 12):
            done = self.race(kind, 30 if kind == "right" else 8, seed)
            self.expect(f"{kind} by seed {seed}", done.out == "0\n" and "turns ended before" in done.err, done.out + done.err)
            self.is_file(f"{kind} by seed {seed}")
            report = run([self.program, "check", self.trace]).out
            verdicts = re.findall(r"^(?:persist|ordered) \d+ (\w+)$", report, re.M)
            self.expect(f"{kind} by seed {seed}: claims", len(verdicts) > 50 and set(verdicts) == {"pass"}, report[-200:])

    def test_each_store(self):
        """Every kind of store, by threads that are stopped at each access where they meet: the replayed trace is the file."""
        stores = self.build(TOP / "tests/recorders/valgrind/stores.c", "-mavx2")
        for threads in (2, 4):
            done = self.record("--switch-every", 1, "--pool", self.pool, stores, self.pool, threads)
            self.expect(f"stores of {threads}", done.status == 0 and "not recorded" not in done.err, done.err)
            self.is_file(f"stores of {threads}")


class Each(Checks):
    """A program that is left before each access, once, writes what it writes."""

    @classmethod
    def setUpClass(cls):
        need_recorder()

    def is_the_same(self, words):
        need(words[0], words[0])
        trace = self.new_folder() / "trace"
        tool = ["valgrind", "--tool=pmtrim_record", "--command-line-only=yes", "-q", "--labels=no", "--part-each=yes", f"--trace={trace}"]
        plain = run(words)
        parted = run([*tool, *words], {"VALGRIND_LIB": str(FOLDER / "out")})
        self.expect(words[0], plain.status == parted.status == 0 and len(plain.out) > 5, parted.err)
        self.expect(f"{words[0]}: what it writes", plain.out == parted.out, parted.out[:300])


class Cost(Recorded):
    """What it costs to ask: nothing in one thread, and with two at most as much again as the program takes."""

    def seconds(self, words):
        """Of the processor."""
        before = resource.getrusage(resource.RUSAGE_CHILDREN)
        self.expect_equal("its status", run(words).status, 0)
        after = resource.getrusage(resource.RUSAGE_CHILDREN)
        return after.ru_utime + after.ru_stime - before.ru_utime - before.ru_stime

    def test_asking(self):
        """Against the same where no turn ends, so that nothing is asked. One pair of five is enough: other programs slow one of two runs."""
        loads = self.build(SOURCES / "loads.c")
        for threads, most in ((1, 1.15), (2, 2.2)):
            words = [RECORD, "--trace", self.trace, "--switch-every"]
            found = []
            while len(found) < 5 and (not found or min(found) >= most):
                found.append(self.seconds([*words, 4, loads, self.pool, threads]) / self.seconds([*words, 0, loads, self.pool, threads]))
            self.expect(f"{threads} of threads", min(found) < most, found)


class Waits(Recorded):
    """Where Valgrind does not see that a process waits, the others run; where one keeps its turn and sleeps that is told, and SIGTERM ends it."""

    def setUp(self):
        super().setUp()
        self.waits = self.build(SOURCES / "waits.c")

    def words(self, kind, *options):
        return [str(word) for word in (RECORD, *options, "--trace", self.trace, self.waits, kind, self.pool)]

    def ends_at_once(self, row):
        kind, option, written, stores = row
        done = run(self.words(kind, option))
        self.expect_equal(kind, (done.status, done.out.split("\n")), (0, written))
        events = events_of(self.trace)
        self.expect_equal(f"{kind}: stores", sorted(fields[2] for fields in events if fields[0] == "store"), stores)

    def told(self, path, seconds=20):
        """The line of a sleeper, where it comes in time."""
        until = time.monotonic() + seconds
        while time.monotonic() < until and "sleeps in the system" not in path.read_text():
            time.sleep(0.2)
        return path.read_text()

    def test_thread(self):
        """Within one process."""
        faults = self.folder / "faults"
        with open(faults, "w") as stderr, subprocess.Popen(self.words("asleep"), stdout=subprocess.DEVNULL, stderr=stderr) as running:
            told = self.told(faults, 120)
            running.send_signal(signal.SIGTERM)
            self.expect_equal("a thread that sleeps: SIGTERM", running.wait(timeout=120), -signal.SIGKILL)
        self.expect("a thread that sleeps: told", re.search(r"threads wait for their turn: thread \d+ has it, and sleeps", told), told)

    def test_process(self):
        """A process that is stopped, in its turn: it has one now and then."""
        faults = self.folder / "faults"
        with open(faults, "w") as stderr, subprocess.Popen(self.words("stopped", "--one-trace"), stdout=subprocess.PIPE, stderr=stderr) as running:
            child, told = int(running.stdout.readline()), ""
            for _ in range(10):
                os.kill(child, signal.SIGSTOP)
                if "sleeps" in (told := self.told(faults)):
                    break
                os.kill(child, signal.SIGCONT)
                time.sleep(0.5)
            running.send_signal(signal.SIGTERM)
            self.expect_equal("a process that sleeps: SIGTERM", running.wait(timeout=120), -signal.SIGTERM)
        self.expect("a process that sleeps: told", f"process {child} has it, and sleeps in the system" in told, told)
        self.expect("a process that sleeps: it is ended", "1 process was killed while it ran" in faults.read_text(), faults.read_text())


class Children(Recorded):
    """The trace of a process that another one begins or becomes begins with what was not safe, so that a claim there has its verdict."""

    def claims(self, kind):
        program, wanted = self.build(SOURCES / "hands_on.c"), "pass" if kind == "saved" else "fail"
        done = self.record("--trace-children", "yes", "--base", program, kind, self.pool)
        traces = [path for path in self.folder.iterdir() if re.fullmatch(r"trace(\.\d+)*", path.name)]
        reports = [run([self.program, "check", path]).out for path in traces]
        found = [verdict for report in reports for verdict in re.findall(r"^persist \d+ (\w+)$", report, re.M)]
        self.expect_equal(f"{kind}: the claim", found, [wanted])
        told = next(told for told, report in zip(traces, reports) if "\npersist" in report)
        carried = [fields[2:] for fields in events_of(told) if fields[0] == "store"][: wanted == "fail"]
        self.expect_equal(f"{kind}: what it begins with", carried, [["0x64", "09"]] * (wanted == "fail"))
        base = told.with_name(f"{told.name}.base").read_bytes()
        self.expect_equal(f"{kind}: its base", base[100], 9 * (wanted == "pass"))
        told = "events of children that have traces of their own (--one-trace has all in one): 4;" in done.err
        self.expect_equal(f"{kind}: what the parent's trace lacks is told", told, kind in ("fork", "flushed", "twice"))
        left = [path.name for path in self.folder.iterdir() if path.name.endswith(".carried")]
        self.expect_equal(f"{kind}: nothing else is left", (done.status, left), (0, []))


add_tests(Waits, Waits.ends_at_once, ENDING)
add_tests(Children, Children.claims, {kind: kind for kind in ("fork", "vfork", "exec", "spawn", "shell", "twice", "flushed", "saved")})
add_tests(Races, Races.finds, FOUND)
add_tests(Right, Right.keeps_right, {"right": "right", "crowd": "crowd"})
add_tests(Each, Each.is_the_same, EACH)
