"""Refuses each request for memory in turn, and each start of a thread: to the program, and to that of crates/refused_calls.

A run whose Nth request is refused, alone or with all later ones, answers as with memory, or tells want of memory and writes nothing.
N goes from 1 on until nothing is refused.
"""
import itertools
import subprocess
from functools import partial
from typing import NamedTuple

import faulty
from faulty import Answer, UnderFaults
from program import TOP, NotThere, find, sources_of
from traces import EXAMPLES, report_of, trace_of, trimmed_of

REFUSED_CALLS = TOP / "crates/refused_calls"
CALLS = REFUSED_CALLS / "out/refused_calls"
VERDICTS = (REFUSED_CALLS / "stdout").read_bytes()
WANT_OF_MEMORY = Answer(5, b"", b"out of memory\n")


class Case(NamedTuple):
    """Words, and the answers to them that are right with memory. Where the answer is a stream, want of memory leaves a part of it."""

    words: list
    right: set
    threads: bool = False
    stream: bool = False
    # Of how many requests a few are tried: each time the number is raised by this part of it.
    sparse: float = 0

    def allows(self, answer, refused):
        """Whether this may be the answer, where something was refused or not."""
        if answer in self.right:
            return True
        if not self.stream:
            return refused and answer == WANT_OF_MEMORY
        whole = next(iter(self.right)).out
        return refused and answer == WANT_OF_MEMORY._replace(out=answer.out) and whole.startswith(answer.out)


def sweep(run, case, fault, later):
    """What is wrong with the runs of a case in which a call of a kind fails: each in turn, until none does."""
    words = " ".join(map(str, case.words))
    complaints = []
    at = 0
    refused = 1
    while refused:
        at += 1 + int(at * case.sparse)
        answer, refused = run(case.words, fault=fault, fault_at=at, fault_later=later)
        if not case.allows(answer, refused > 0) or (refused > 1 and not later):
            complaints.append(f"{words}: {fault} {at} (later: {later}, {refused} refused): {faulty.short(answer)}")
    if at == 1:
        complaints.append(f"{words}: {fault}: nothing was refused")
    return complaints


def sweeps(run, case):
    """All sweeps of a case."""
    faults = ["memory", "thread"] if case.threads else ["memory"]
    return [partial(sweep, run, case, fault, later) for fault in faults for later in (0, 1)]


def text(events, header="pmtrace 1"):
    """A text from its events, which stand between semicolons."""
    return "".join(line + "\n" for line in [header, *filter(None, events.split("; "))]).encode()


def answers_of_examples():
    """`check` and `trim` of worked traces, by one worker and by two."""
    for name in ("fence_of_another_thread", "flushed_by_two_threads", "forty_lines", "six_flushers"):
        trace = trace_of(name)
        report = report_of(trace).read_bytes()
        status = 1 if b" fail\n" in report or b"never-persisted" in report else 0
        trimmed = trimmed_of(trace).read_bytes()
        for workers in ("1", "2"):
            yield Case(["check", "--workers", workers, trace], {Answer(status, report)})
            yield Case(["trim", "--workers", workers, trace], {Answer(0, trimmed)})


def answers_of_fronts():
    """`fronts` of the same traces."""
    yield Case(["fronts", trace_of("flushed_by_two_threads"), "0"], {Answer(0, b"place 0 lines 0\n")})
    forty = "".join(f"line {addr:#x} front 1 count 1; " for addr in range(0x1000, 0x1A00, 64))
    for name, place, fronts in (
        ("fence_of_another_thread", 4, "line 0x1000 front 0 count 1"),
        ("flushed_by_two_threads", 3, "line 0x1000 front 0 count 1"),
        ("flushed_by_two_threads", 4, "line 0x1000 front 1 count 1"),
        ("six_flushers", 13, "line 0x1000 front 1 count 1"),
        ("forty_lines", 82, forty),
    ):
        lines = fronts.count("line")
        yield Case(["fronts", trace_of(name), str(place)], {Answer(0, text(fronts, f"place {place} lines {lines}"))})


def interleavings(*scripts):
    """The texts of all traces in which each script is the part of its thread."""
    places = [thread for thread, script in enumerate(scripts) for _ in script]
    for order in set(itertools.permutations(places)):
        rest = [iter(script) for script in scripts]
        yield text("; ".join(next(rest[thread]).format(thread) for thread in order))


def answers_of_record(folder):
    """`record` of scripts that are right or faulty."""
    one = ["store {} 0x1000 01", "clwb {} 0x1000", "sfence {}"]
    two = ["clwb {} 0x1000", "sfence {}"]
    scripts = {"one": one, "two": two, "empty": []}
    for name, script in scripts.items():
        (folder / name).write_text("".join(event.replace(" {}", "") + "\n" for event in script))
    (folder / "faulty").write_text("sfence 0\n")
    for names in (["one"], ["empty"], ["one", "two"], ["two", "empty", "one"]):
        right = {Answer(0, trace) for trace in interleavings(*(scripts[name] for name in names))}
        yield Case(["record", *(folder / name for name in names)], right, threads=len(names) > 1)
    refused = Answer(3, b"", b"script 2 line 1: bad-field\n")
    yield Case(["record", folder / "one", folder / "faulty"], {refused})
    yield Case(["record", folder / "one", folder / "none"], {Answer(4, b"", b"file fault\n")})


def lines(count):
    """A store to each of so many lines with a flush, and a fence for all of them."""
    addrs = range(0x1000, 0x1000 + 64 * count, 64)
    return text("; ".join([*(f"store 0 {addr:#x} 01; clwb 0 {addr:#x}" for addr in addrs), "sfence 0"]))


def answers_of_many_lines(folder):
    """A trace of ten thousand lines, whose last fence has no effect."""
    trace = folder / "many_lines"
    trimmed = lines(10000)
    trace.write_bytes(trimmed + b"sfence 0\n")
    report = b"events 20002 lines 10000\nfence-without-flush 20002\nkept 20001 dropped 1\n"
    fronts = "; ".join(f"line {addr:#x} front 1 count 1" for addr in range(0x1000, 0x1000 + 64 * 10000, 64))
    yield Case(["trim", trace], {Answer(0, trimmed)}, sparse=0.3)
    yield Case(["trim", "--workers", "8", trace], {Answer(0, trimmed)}, sparse=0.3)
    yield Case(["check", "--workers", "4", trace], {Answer(0, report)}, sparse=0.3)
    yield Case(["fronts", trace, "20001"], {Answer(0, text(fronts, "place 20001 lines 10000"))}, sparse=0.3)


def answers_of_two_lines(folder):
    """Two lines in turns, at one place of the table of those found last: each store looks its line up, till more places are remembered."""
    rounds = 1100
    stores = "store 0 0x1000 01; {}store 0 0x21000 01; {}"
    flushed = stores.format("clwb 0 0x1000; ", "clwb 0 0x21000; ")
    trace = folder / "two_lines"
    trace.write_bytes(text(flushed * rounds + "sfence 0"))
    trimmed = text(stores.format("", "") * (rounds - 1) + flushed + "sfence 0")
    report = f"events {4 * rounds + 1} lines 2\nkept {2 * rounds + 3} dropped {2 * rounds - 2}\n".encode()
    fronts = "; ".join(f"line {addr} front {rounds} count {rounds}" for addr in ("0x1000", "0x21000"))
    yield Case(["trim", trace], {Answer(0, trimmed)})
    yield Case(["check", trace], {Answer(0, report)})
    yield Case(["fronts", trace, str(4 * rounds + 1)], {Answer(0, text(fronts, f"place {4 * rounds + 1} lines 2"))})


def under_a_limit(program, trace, words):
    """A million events, with too little memory for them: 40 MB of addresses, which hold little more than the text or the lines."""
    limited = ["bash", "-c", 'ulimit -v 40000; exec "$@"', "limited", program, *words, trace]
    done = subprocess.run(limited, capture_output=True, timeout=120)
    answer = Answer(done.returncode, done.stdout, done.stderr)
    return [] if answer == WANT_OF_MEMORY else [f"{words}, a million events: {faulty.short(answer)}"]


def large_answers(run, folder):
    """What is wrong with the commands that hold a trace, on one of 100,003 events, where no memory is refused."""
    count = 50000
    trace, base = folder / "large", folder / "base"
    lost, claim = f"store 1 {64 * count + 0x1000:#x} 07", f"isPersist 1 {64 * count + 0x1000:#x} 1"
    trace.write_bytes(lines(count) + f"{lost}\n{claim}\n".encode())
    base.write_bytes(bytes(0x1000 + 64 * count + 1))
    failure = ["--failure", str(2 * count + 3)]
    crashed = bytes(0x1000) + (b"\1" + bytes(63)) * count + b"\0"
    head = f"events {2 * count + 3}, threads 2, cache lines {count + 1} of 64 bytes, bytes stored {count + 1}\n".encode()
    wanted = {
        ("slice", *failure): text(f"{lost}; {claim}"),
        ("image", *failure, "--pool", base, "--origin", "0x0"): crashed,
        ("stat",): head,
        ("draw", *failure): b"<svg ",
    }
    complaints = []
    for words, begins in wanted.items():
        answer, _ = run([*words, trace])
        whole = words[0] in ("slice", "image")
        if answer.status or answer.faults or not answer.out.startswith(begins) or whole and answer.out != begins:
            complaints.append(f"{words[0]} of a large trace: {faulty.short(answer)}")
    return complaints


def faults_told(folder):
    """Refusals, each of which is told by a line."""
    trace = folder / "faulty.trace"
    trace.write_bytes(text("store 0 0x1000 01; store 0 0x1007 0102"))
    line = Answer(3, b"", b"trace line 3: crosses-word\n")
    for words in (["trim", trace], ["check", "--workers", "2", trace], ["fronts", trace, "0"]):
        yield Case(words, {line})
    past = Answer(2, b"", b"place past end 5\n")
    yield Case(["fronts", trace_of("flushed_by_two_threads"), "6"], {past})
    yield Case(["trim", folder / "none"], {Answer(4, b"", b"file fault\n")})


def reasoned(run, folder):
    """Reasons below a fault's line, whose text is the program's own: what it writes with memory."""
    trace, bad = EXAMPLES / "mark_too_early.trace", folder / "bad.trace"
    script = folder / "faulty.script"
    bad.write_bytes(text("store 0 0x1000 01; store 0 0x01007 01\r"))
    script.write_text("sfence\nsfence 0\n")
    for words, status in (
        (["check", "-v", bad], 3),
        (["trim", "-v", "--stream", bad], 3),
        (["record", "-v", script], 3),
        (["fronts", "-v", folder / "none", "1"], 4),
        ([trace], 2),
    ):
        answer, _ = run(words)
        yield Case(words, {answer._replace(status=status)}, stream="--stream" in words)


def words_answered(run):
    """Help and usage faults, whose text is the program's own: what it writes with memory."""
    for words, status in (
        (["--help"], 0),
        (["check", "--help"], 0),
        (["--version"], 0),
        (["frob"], 2),
        (["trim", "--workers", "3"], 2),
        (["fronts", "trace", "01"], 2),
        (["record"], 2),
    ):
        answer, _ = run(words)
        yield Case(words, {answer._replace(status=status)})


def explained(run, folder):
    """Answers and faults of `explain`, whose text is the program's own: what it writes with memory."""
    trace, bad, labels = EXAMPLES / "mark_too_early.trace", folder / "bad.trace", folder / "labels"
    bad.write_bytes(text("store 0 0x1000 01; store 0 0x01007 01\r"))
    labels.write_text("1 save.c:3\n2 save.c:4\n7 save.c:9 claim\n")
    ranges = folder / "ranges"
    ranges.write_text("0x1000:8\nlabel save.c:*\n0x2000:8\n")
    source = folder / "source"
    source.mkdir()
    (source / "save.c").write_text("\n\n\tstore(a);\n\tflush(\ta);\n")
    for words, status in (
        ([trace], 1),
        (["--json", "--labels", labels, "--ignore", "0x1000:8", "--ignore", "0x1004:8", trace], 1),
        (["--html", "--labels", labels, trace], 1),
        (["--labels", labels, "--source", source, "--color", "always", trace], 1),
        (["--labels", labels, "--source", folder / "none", trace], 4),
        (["--label", "save", "--range", "0x1000:8", "--labels", labels, "--ignore-file", ranges, trace], 1),
        (["--labels", labels, "--ignore-label", "save.c:4", "--ignore-label", "save*", trace], 1),
        (["--limit", "0", EXAMPLES / "flushed_by_two_threads.trace"], 0),
        ([bad], 3),
        (["--labels", trace, trace], 3),
        ([folder / "none"], 4),
        (["--ignore", "8", trace], 2),
        (["--labels", labels, "--ignore-label", "a < b", trace], 2),
    ):
        answer, _ = run(["explain", *words])
        yield Case(["explain", *words], {answer._replace(status=status)}, threads=status < 2)


def streams(folder):
    """`trim --stream`: a part is out where memory is refused later."""
    persist = "store 0 0x1000 01; clwb 0 0x1000; sfence 0"
    late = "store 0 0x1000 01; clwb 0 0x1000; store 0 0x1040 02; sfence 256"
    two = "store 0 0x1000 01; clwb 0 0x1000; clwb 1 0x1000; sfence 1; sfence 0"
    for number, (events, right) in enumerate(
        (
            (persist, Answer(0, text(persist))),
            (persist + "; sfence 256", Answer(3, text(persist), b"trace line 5: out-of-range\n")),
            (late, Answer(3, text("store 0 0x1000 01"), b"trace line 5: out-of-range\n")),
            (two, Answer(0, text("store 0 0x1000 01; clwb 1 0x1000; sfence 1"))),
        )
    ):
        trace = folder / f"{number}.trace"
        trace.write_bytes(text(events))
        yield Case(["trim", "--stream", trace], {right}, stream=True)


def sweep_of_calls(calls, right):
    """What is wrong with the calls that are made again after a refusal: the verdicts are these, and each call was refused once at least."""
    seen = set()
    complaints = []
    for at in itertools.count(1):
        answer, refused = calls([], fault="memory", fault_at=at)
        lines = answer.out.splitlines()
        told = [line for line in lines if line.startswith(b"refused: ")]
        others = [line for line in lines if line not in told]
        # A thread that is not started for want of memory leaves its work to the caller, who tells nothing.
        if answer._replace(out=others) != Answer(0, right.splitlines()) or len(told) > refused:
            complaints.append(f"calls: memory {at} ({refused} refused): {faulty.short(answer)}")
        seen.update(told)
        if not refused or len(complaints) > 2:
            break
    for verdict in right.splitlines():
        call = verdict.split(b": ")[0]
        if b"refused: " + call not in seen:
            complaints.append(f"never refused: {call}")
    return complaints


def with_ample_memory(calls, right):
    """What is wrong with the calls, those on whole traces on one of 100,004 events, where no memory is refused."""
    answer, _ = calls(["large"])
    return [] if answer == Answer(0, right) else [f"calls on a large trace: {faulty.short(answer)}"]


def finds_what_is_wrong(run):
    """The sweeps complain where another answer is asked for, and where the library refuses nothing."""
    trace = trace_of("one_persist")
    right = Answer(0, trace.read_bytes())
    case = Case(["trim", trace], {right})
    other = case._replace(right={right._replace(out=right.out + b"\n")})
    complaints = []
    if not sweep(run, other, "memory", 0):
        complaints.append("another answer was asked for, and no sweep complained")
    if not sweep(run, case, "none", 0):
        complaints.append("nothing was refused, and no sweep complained")
    for wrong in (Answer(6, b"", b"torn recorder 0\n"), WANT_OF_MEMORY._replace(out=right.out[:28]), Answer(5, b"", b"")):
        if case.allows(wrong, True):
            complaints.append(f"this passed as want of memory: {wrong}")
    if case.allows(WANT_OF_MEMORY, False):
        complaints.append("want of memory passed where nothing was refused")
    return complaints


def finds_wrong_verdicts(calls):
    """The calls' sweeps complain where other verdicts are asked for."""
    wrong = VERDICTS.replace(b"right", b"wrong")
    asked = (sweep_of_calls(calls, wrong), with_ample_memory(calls, wrong))
    return [] if all(asked) else ["other verdicts were asked for, and there was no complaint"]


def build_calls():
    """Builds the program of the crate, unless it is younger than its sources. NotThere: it can not be built."""
    built = CALLS.stat().st_mtime if CALLS.exists() else 0
    if all(path.stat().st_mtime <= built for path in sources_of("refused_calls")):
        return
    streams = {"stdin": subprocess.DEVNULL, "stdout": subprocess.DEVNULL, "stderr": subprocess.DEVNULL}
    if subprocess.run(["rt", "run"], cwd=REFUSED_CALLS, **streams).returncode != 0:
        raise NotThere("crates/refused_calls is not built")


class Refusals(UnderFaults):
    """Sweeps, made side by side; a check is of a command, a kind of call, and whether it alone is refused or all later ones too."""

    def setUp(self):
        self.folder = self.new_folder()


class OfTheProgram(Refusals):
    """Refusals to the program."""

    @classmethod
    def setUpClass(cls):
        super().setUpClass()
        find()

    def setUp(self):
        super().setUp()
        self.run_refused = partial(faulty.run, self.library, self.program)

    def expect_sweeps(self, cases):
        calls = []
        for case in cases:
            words = " ".join(map(str, case.words))
            calls += [(f"{words} {number}", sweep_once) for number, sweep_once in enumerate(sweeps(self.run_refused, case))]
        self.expect_of_all(calls)

    def test_many_lines(self):
        self.expect_sweeps(answers_of_many_lines(self.folder))

    def test_two_lines(self):
        self.expect_sweeps(answers_of_two_lines(self.folder))

    def test_examples(self):
        self.expect_sweeps(answers_of_examples())

    def test_fronts(self):
        self.expect_sweeps(answers_of_fronts())

    def test_record(self):
        self.expect_sweeps(answers_of_record(self.folder))

    def test_faults(self):
        self.expect_sweeps(faults_told(self.folder))

    def test_reasoned(self):
        self.expect_sweeps(reasoned(self.run_refused, self.folder))

    def test_words(self):
        self.expect_sweeps(words_answered(self.run_refused))

    def test_explain(self):
        self.expect_sweeps(explained(self.run_refused, self.folder))

    def test_streams(self):
        self.expect_sweeps(streams(self.folder))

    def test_a_million_events(self):
        trace = self.folder / "million"
        trace.write_bytes(lines(499999))
        limited = (["trim"], ["trim", "--workers", "4"], ["check"])
        self.expect_of_all([(words, partial(under_a_limit, self.program, trace, words)) for words in limited])

    def test_ample_memory(self):
        self.expect_of_all([("commands on a large trace", partial(large_answers, self.run_refused, self.folder))])

    def test_finds_what_is_wrong(self):
        self.expect_of_all([("wrong answers", partial(finds_what_is_wrong, self.run_refused))])


class OfTheCalls(Refusals):
    """Refusals to the library's calls."""

    @classmethod
    def setUpClass(cls):
        super().setUpClass()
        build_calls()

    def setUp(self):
        super().setUp()
        self.calls = partial(faulty.run, self.library, CALLS)

    def test_calls(self):
        self.expect_of_all([("calls", partial(sweep_of_calls, self.calls, VERDICTS))])

    def test_always_out_of_memory_or_always_torn(self):
        self.expect_of_all([("calls with memory", partial(with_ample_memory, self.calls, VERDICTS))])

    def test_finds_wrong_verdicts(self):
        self.expect_of_all([("wrong verdicts", partial(finds_wrong_verdicts, self.calls))])
