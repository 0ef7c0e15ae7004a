"""Answers that no worked trace has, and the trimmed traces, checked and trimmed again; further answers stand in refused_texts.py."""
import itertools
import subprocess

from checks import Checks, add_tests
from refused_texts import ACCEPTED_TEXTS, REFUSED_EVENTS, REFUSED_TEXTS
from traces import all_traces, trace_of

# Worked traces, and the report of each when it is trimmed.
TRIMMED = [
    ("double_flush", 0, "events 3 lines 1; kept 3 dropped 0"),
    ("flushed_again", 0, "events 3 lines 1; kept 3 dropped 0"),
    ("flush_without_stores", 0, "events 0 lines 0; kept 0 dropped 0"),
    ("flush_by_an_unfenced_thread", 1, "events 4 lines 1; never-persisted 3 dirty; kept 4 dropped 0"),
    ("six_flushers", 0, "events 3 lines 1; kept 3 dropped 0"),
    ("clflush_beats_clwb", 0, "events 2 lines 1; kept 2 dropped 0"),
    ("sfence_after_clflush", 0, "events 2 lines 1; kept 2 dropped 0"),
]

# Words, a text, the status and the answer; a fault, where the status is 3.
ANSWERS = [
    ("check", "pmtrace 1; isPersist 0 0xffffffffffff 1", 0, "events 1 lines 0; persist 1 pass; kept 1 dropped 0"),
    # wide_line
    ("fronts /dev/stdin 4", "pmtrace 2 128; store 0 0x1000 01; clwb 0 0x1040; sfence 0; isPersist 0 0x1000 1", 0,
     "place 4 lines 1; line 0x1000 front 1 count 1"),
    # wide_fronts
    ("fronts /dev/stdin 1", "pmtrace 2 256; store 0 0x10c0 01", 0, "place 1 lines 1; line 0x1000 front 0 count 1"),
    ("fronts /dev/stdin 3", "pmtrace 1; store 0 0x1000 01; clwb 0 0x1000; sfence 0; store 0 0x1000 02", 0,
     "place 3 lines 1; line 0x1000 front 1 count 1"),
    ("fronts /dev/stdin 6",
     "pmtrace 2 64; store 0 0x1040 01; clflushopt 1 0x1000; store 0 0x1000 01; clflush 0 0x1040; mfence 1; store 1 0x1040 01", 0,
     "place 6 lines 2; line 0x1040 front 1 count 2; line 0x1000 front 0 count 1"),
    ("fronts /dev/stdin 1", "pmtrace 1; sfence 0; sfence 00", 3, "trace line 3: bad-field"),
    ("check", "pmtrace 2 128", 0, "events 0 lines 0; kept 0 dropped 0"),
    ("check", "pmtrace 1; store 0 0x1000 01; store 0 0x1001 02; store 0 0x1000 0304; clwb 0 0x1000", 1,
     "events 4 lines 1; never-persisted 1 flushed; never-persisted 2 flushed; overwritten 1 by 3; overwritten 2 by 3; "
     "never-persisted 3 flushed; kept 3 dropped 1"),
    ("check", "pmtrace 1; store 0 0x1000 01; clwb 0 0x1000; clwb 0 0x1000; sfence 0; clwb 0 0x1000; sfence 0; sfence 0", 0,
     "events 7 lines 1; redundant-flush 3; redundant-flush 5; fence-without-flush 7; kept 3 dropped 4"),
    *((f"check --workers {workers}", "pmtrace 1; store 0 0x1000 01; clwb 0 0x1000; sfence 1; isPersist 0 0x1000 1", 1,
       "events 4 lines 1; never-persisted 1 flushed; fence-without-flush 3; persist 4 fail; kept 2 dropped 2")
      for workers in (1, 2, 4, 8, 16)),
]

# The event that a letter stands for, without its thread.
SHORT = {
    "p": "store {} 0x1000 01", "a": "store {} 0x1000 02", "q": "store {} 0x1008 02", "o": "store {} 0x1040 02",
    "c": "clwb {} 0x1000", "x": "clwb {} 0x1040", "y": "clflushopt {} 0x1040", "f": "clflush {} 0x1000",
    "i": "isPersist {} 0x1000 1", "m": "mfence {}", "s": "sfence {}",
}

# Events, each a thread and a letter, and the numbers of those that are kept.
KEPT = {
    "no_events": ("", []),
    "one_persist": ("0p 0c 0s", [1, 2, 3]),
    "double_flush": ("0p 0c 0c 0s", [1, 3, 4]),
    "two_rounds": ("0p 0c 0s 0a 0c 0s", [1, 2, 3, 4, 5, 6]),
    "flushed_again": ("0p 0c 0s 0c 0s", [1, 2, 3]),
    "fence_of_another_thread": ("0p 0c 1s 0i", [1, 4]),
    "flushed_by_two_threads": ("0p 0c 1c 1s 0s", [1, 3, 4]),
    "flush_by_an_unfenced_thread": ("0p 0c 0q 1c 0s", [1, 2, 3, 5]),
    "flush_without_stores": ("0c 0s", []),
    "fence_by_its_last_flush": ("0p 0c 0x 0s", [1, 2, 4]),
    "clflush_beats_clwb": ("0p 0c 0f 0s 0f", [1, 3]),
    "six_flushers": ("0p 0c 1c 2c 3c 4c 5c 5s 4s 3s 2s 1s 0s", [1, 7, 8]),
    "two_lines": ("0p 1c 1y 0o 1m", [1, 2, 4, 5]),
    "two_lines_and_two_fences": ("0p 0c 0o 1x 0s 1s", [1, 2, 3, 4, 5, 6]),
}

# A text, and what the stream answers: its status, what is out, and the fault.
STREAMED = {
    "stream": ("pmtrace 1; store 0 0x1000 01; clwb 0 0x1000; sfence 0; sfence 256", 3,
               "pmtrace 1; store 0 0x1000 01; clwb 0 0x1000; sfence 0", "trace line 5: out-of-range"),
    "stream_behind_an_open_flush": ("pmtrace 1; store 0 0x1000 01; clwb 0 0x1000; store 0 0x1040 02; sfence 256", 3,
                                    "pmtrace 1; store 0 0x1000 01", "trace line 5: out-of-range"),
    "stream_before_a_fault": ("pmtrace 1; store 0 0x1000 01; foo", 3, "pmtrace 1; store 0 0x1000 01", "trace line 3: bad-word"),
    "open_flush_before_a_fault": ("pmtrace 1; store 0 0x1000 01; clwb 0 0x1000; store 0 0x1008 02; sfence 256", 3,
                                  "pmtrace 1; store 0 0x1000 01", "trace line 5: out-of-range"),
}


class Answers(Checks):
    """What is asked of the program, and its answers."""

    def run_program(self, words, text=b""):
        """The status, the answer and the faults."""
        done = subprocess.run([self.program, *words], input=text, capture_output=True, timeout=60)
        return done.returncode, done.stdout, done.stderr

    def expect_answer(self, name, words, text, status, answer):
        wanted = (status, b"", answer) if status == 3 else (status, answer, b"")
        self.expect_equal(f"{name}: {words} {text[:80]}", self.run_program(words, text), wanted)


def lines(text):
    """What stands between semicolons, as lines."""
    return "".join(line + "\n" for line in text.split("; ")).encode()


class Tables(Answers):
    """Answers that were worked out by hand."""

    def test_answers(self):
        for words, text, status, answer in ANSWERS:
            self.expect_answer("answers", words.split(" "), lines(text), status, lines(answer))

    def test_trimmed_again(self):
        """What `check` says of worked traces that were trimmed."""
        for name, status, report in TRIMMED:
            _, trimmed, _ = self.run_program(["trim", trace_of(name)])
            self.expect_answer(name, ["check"], trimmed, status, lines(report))
        _, trimmed, _ = self.run_program(["trim", trace_of("six_flushers")])
        self.expect_equal("six_flushers trimmed", trimmed, lines("pmtrace 1; store 0 0x1000 01; clwb 5 0x1000; sfence 5"))

    def test_kept_of_short_traces(self):
        for name, (events, numbers) in KEPT.items():
            spelled = [SHORT[event[1]].format(event[0]) for event in events.split()]
            kept = [spelled[number - 1] for number in numbers]
            text, wanted = (lines("; ".join(["pmtrace 2 64", *chosen])) for chosen in (spelled, kept))
            self.expect_answer(name, ["trim"], text, 0, wanted)

    def test_streamed(self):
        for name, (text, status, out, fault) in STREAMED.items():
            wanted = (status, lines(out), lines(fault) if fault else b"")
            self.expect_equal(name, self.run_program(["trim", "--stream"], lines(text)), wanted)


class Texts(Answers):
    """Texts that are refused, and texts at each limit."""

    def refused_events(self, rows):
        """Each faulty line alone, and with a right line before it and one after it."""
        for line, kind in rows:
            for before, after, number in (("", "", 2), ("sfence 0\n", "sfence 0\n", 3)):
                text = f"pmtrace 1\n{before}{line}\n{after}".encode()
                self.expect_answer("refused", ["check"], text, 3, lines(f"trace line {number}: {kind}"))

    def refused_texts(self, rows):
        for text, number, kind in rows:
            self.expect_answer("refused", ["check"], text, 3, lines(f"trace line {number}: {kind}"))

    def accepted_texts(self, rows):
        for text in rows:
            self.expect_answer("accepted", ["trim"], lines(text), 0, lines(text))


add_tests(Texts, Texts.refused_events, {f"refused_events_{name}": rows for name, rows in REFUSED_EVENTS.items()})
add_tests(Texts, Texts.refused_texts, REFUSED_TEXTS)
add_tests(Texts, Texts.accepted_texts, {f"accepted_{name}": rows for name, rows in ACCEPTED_TEXTS.items()})


def entries(report, words):
    """How many entries begin with each of these words, and with which other words they go on than a number."""
    fields = [line.split(" ") for line in report.decode().splitlines()]
    return [[field for field in line[2:] if field in ("pass", "fail")] for line in fields if line[0] in words]


class Trimmed(Answers):
    """Traces that are trimmed, checked and trimmed again."""

    def check_trimmed(self, text):
        """A trimmed trace keeps its verdicts and its never-persisted stores, and nothing in it can go. The stream writes the same."""
        _, before, _ = self.run_program(["check"], text)
        _, trimmed, _ = self.run_program(["trim"], text)
        self.expect_answer("the stream", ["trim", "--stream"], text, 0, trimmed)
        _, after, _ = self.run_program(["check"], trimmed)
        events = trimmed.count(b"\n") - 1
        self.expect("kept", after.endswith(b"\nkept %d dropped 0\n" % events), after)
        self.expect("nothing without effect", not entries(after, ("redundant-flush", "fence-without-flush")), after)
        for words in (("persist", "ordered"), ("never-persisted",)):
            self.expect(words, entries(after, words) == entries(before, words), after)
        self.expect_answer("again", ["trim"], trimmed, 0, trimmed)

    def check_trace(self, trace):
        self.check_trimmed(trace.read_bytes())

    def test_two_recorders(self):
        """A trace that two threads record with a hundred events each, trimmed."""
        folder, names = self.new_folder(), []
        for thread in range(2):
            turn = ["store 0x%x 01" % (0x1000 + 8 * thread), "clwb 0x1000", "clwb 0x1000", "sfence", "sfence"]
            names.append(folder / str(thread))
            names[-1].write_text("".join(op + "\n" for op in itertools.islice(itertools.cycle(turn), 100)))
        status, recorded, _ = self.run_program(["record", *names])
        self.expect("two_recorders", status == 0 and recorded.count(b"\n") == 201, recorded[:80])
        self.check_trimmed(recorded)


add_tests(Trimmed, Trimmed.check_trace, {trace.stem: trace for trace in all_traces()})


class Late(Answers):
    """Assertions that come late."""

    def test_late_assertions(self):
        """The first assertions come after 40,000 events, and are of stores that came before them all."""
        first = ["store 0 0x1000 01", "clwb 0 0x1000", "sfence 0", "store 0 0x2000 02"]
        turn = ("store 0 0x%x 03", "clwb 0 0x%x", "sfence 0")
        between = (op % (0x100000 + 64 * line) if "%" in op else op for line in range(13332) for op in turn)
        last = ["isPersist 0 0x1000 1", "isPersist 0 0x2000 1", "isOrderedBefore 0 0x1000 1 0x2000 1", "isOrderedBefore 0 0x2000 1 0x1000 1"]
        text = lines("; ".join(["pmtrace 1", *first, *between, *last]))
        verdicts = "persist 40001 pass; persist 40002 fail; ordered 40003 pass; ordered 40004 fail"
        report = f"events 40004 lines 13334; never-persisted 4 dirty; {verdicts}; kept 40004 dropped 0"
        for workers in ("1", "2", "16"):
            told = self.run_program(["check", "--workers", workers], text)
            self.expect(f"{workers} workers", told == (1, lines(report), b""), told[1][:200])


class Crowded(Answers):
    """More threads flush one line than a short list holds."""

    def test_twenty_flushers(self):
        """Twenty threads flush a line twice after a store, and again after another store; then each fences.

        By the definition (docs/MODEL.md): in each round the first flush of a thread marks a store that is not safe, and that no flush
        of its own marks yet; its second one has nothing to mark. The first fence makes both stores safe, by the last flush of its thread.
        """
        threads = range(0, 260, 13)
        flushes = [f"clwb {thread} 0x1000" for thread in threads]
        again = flushes[::-1]
        fences = [f"sfence {thread}" for thread in threads]
        events = ["store 0 0x1000 01", *flushes, *again, "store 0 0x1008 02", *flushes, *again, *fences]
        redundant = "; ".join(f"redundant-flush {event}" for event in (*range(22, 42), *range(63, 83)))
        report = f"events 102 lines 1; {redundant}; kept 4 dropped 98"
        text = lines("; ".join(["pmtrace 1", *events]))
        for workers in ("1", "2", "16"):
            self.expect_answer("twenty_flushers", ["check", "--workers", workers], text, 0, lines(report))
        kept = "pmtrace 1; store 0 0x1000 01; store 0 0x1008 02; clwb 0 0x1000; sfence 0"
        for words in (["trim"], ["trim", "--stream"]):
            self.expect_answer("twenty_flushers", words, text, 0, lines(kept))
