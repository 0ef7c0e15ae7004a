"""Inputs that are cut short, hostile, or never end, and reads and writes that fail.

Each of the commands reads its trace or script from standard input; `explain`, whose faults are in other words, and the
stream, which has written before it fails, are tried apart.
"""
import itertools
import subprocess
from functools import partial
from typing import NamedTuple

import faulty
from faulty import Answer, UnderFaults
from traces import all_traces

FILE_FAULT = Answer(4, b"", b"file fault\n")
TRACE = [b"pmtrace 1\n", b"store 0 0x1000 01\n", b"clwb 0 0x1000\n", b"sfence 0\n"]
SCRIPT = [b"store 0x1000 01\n", b"clwb 0x1000\n", b"sfence\n"]
STREAM = ["trim", "--stream"]
BOUND = 67_108_864


class Command(NamedTuple):
    """A command, the lines that it reads, what it answers to the first of the events and to more of them, and how it names its input."""

    words: list
    lines: list
    answers: list
    name: bytes = b"trace"

    def fault(self, line, kind):
        """The answer to an input whose line is faulty."""
        return Answer(3, b"", b"%s line %d: %s\n" % (self.name, line, kind))

    def too_long(self):
        """The answer to more bytes than are judged."""
        return Answer(3, b"", self.name + b" too long\n")

    def whole(self):
        """The input, and the answer to it."""
        return b"".join(self.lines), self.answers[-1]

    def reads_script(self):
        """Whether there is no header, and no field for the thread."""
        return self.lines == SCRIPT


def commands():
    """The commands of the program. The place of `fronts` is the end of the whole trace, where it is not named."""
    stored, marked, fenced = (b"".join(TRACE[:count]) for count in (2, 3, 4))
    yield Command(["trim"], TRACE, [Answer(0, text) for text in (TRACE[0], stored, stored, fenced)])
    reports = (
        (0, b"events 0 lines 0\nkept 0 dropped 0\n"),
        (1, b"events 1 lines 1\nnever-persisted 1 dirty\nkept 1 dropped 0\n"),
        (1, b"events 2 lines 1\nnever-persisted 1 flushed\nkept 1 dropped 1\n"),
        (0, b"events 3 lines 1\nkept 3 dropped 0\n"),
    )
    yield Command(["check", "--workers", "2"], TRACE, [Answer(*report) for report in reports])
    past = [Answer(2, b"", b"place past end %d\n" % events) for events in range(3)]
    fronts = Answer(0, b"place 3 lines 1\nline 0x1000 front 1 count 1\n")
    yield Command(["fronts", "/dev/stdin", "3"], TRACE, [*past, fronts])
    recorded = [Answer(0, text) for text in (TRACE[0], stored, marked, fenced)]
    yield Command(["record", "/dev/stdin"], SCRIPT, recorded, b"script 1")


def stream():
    """`trim --stream`, of which the whole trace is asked."""
    return Command(STREAM, TRACE, [Answer(0, b"".join(TRACE))])


def differences(run, command, cases):
    """What is wrong with the answers to these inputs, each with the answer that is right and the calls that must fail."""
    complaints = []
    for text, right, failing, faults in cases:
        answer, failed = run(command.words, text, **faults)
        if (answer, failed) != (right, failing):
            complaints.append(f"{command.words} {text[:80]} {faults}: {failed} failed, {faulty.short(answer)}; wanted {faulty.short(right)}")
    return complaints


def every_cut(command):
    """The first bytes of the input, as many as there may be."""
    whole, _ = command.whole()
    for size in range(len(whole) + 1):
        text = whole[:size]
        complete = text.count(b"\n")
        events = complete if command.reads_script() else complete - 1
        if events >= 0 and text == b"".join(command.lines[:complete]):
            right = command.answers[events]
        else:
            right = command.fault(complete + 1, b"truncated")
        yield text, right, 0, {}
        yield text, right, 0, {"fault_piece": 1}


def every_read(command):
    """Reads of a byte each, one of which fails or is interrupted; the last would have told the end. Reads of 20 bytes, the second fails."""
    whole, answer = command.whole()
    for fault in ("read", "interrupted"):
        for at in range(1, len(whole) + 2):
            yield whole, FILE_FAULT, 1, {"fault": fault, "fault_at": at, "fault_piece": 1}
        yield whole, answer, 0, {"fault": fault, "fault_at": len(whole) + 2, "fault_piece": 1}
        yield whole, FILE_FAULT, 1, {"fault": fault, "fault_at": 2, "fault_piece": 20}


def every_write(command):
    """Writes of a byte each, one of which fails, or takes nothing."""
    whole, answer = command.whole()
    for fault in ("write", "nothing_taken"):
        for at in range(1, len(answer.out) + 1):
            right = FILE_FAULT._replace(out=answer.out[: at - 1])
            yield whole, right, 1, {"fault": fault, "fault_at": at, "fault_piece": 1}
        yield whole, answer, 0, {"fault": fault, "fault_at": len(answer.out) + 1, "fault_piece": 1}


def failing_writer(command):
    """Writes of four bytes each, the third of which fails."""
    whole, answer = command.whole()
    yield whole, FILE_FAULT._replace(out=answer.out[:8]), 1, {"fault": "write", "fault_at": 3, "fault_piece": 4}


def every_write_of_a_fault(command):
    """The same of a fault line, which leaves the status as it is."""
    right = command.fault(1, b"truncated")
    for at in range(1, len(right.faults) + 1):
        written = right._replace(faults=right.faults[: at - 1])
        yield b"a", written, 1, {"fault": "write", "fault_at": at, "fault_piece": 1}


def hostile_bytes(command):
    """A carriage return, a zero byte, a byte that is no text, an empty line, a space at the end."""
    first, rest = ([], SCRIPT) if command.reads_script() else (TRACE[:1], TRACE[1:])
    line = len(first) + 1
    for event, kind in (
        (rest[0][:-1] + b"\r\n", b"bad-field"),
        (b"\0" + rest[0][1:], b"bad-word"),
        (b"\n" + rest[0], b"bad-word"),
        (rest[0][:-1] + b" \n", b"bad-field"),
    ):
        yield b"".join([*first, event, *rest[1:]]), command.fault(line, kind), 0, {}
    kind = b"bad-word" if command.reads_script() else b"bad-header"
    yield b"\xff" + b"".join(command.lines)[1:], command.fault(1, kind), 0, {}


def reading_in_pieces(command):
    """Events that are refused, from reads of a byte each; what is read whole is compared by one_byte_per_read."""
    for event, kind in (
        (b"store 0 0x1007 0102", b"crosses-word"),
        (b"clwb 0 0x01000", b"bad-field"),
        (b"sfence 256", b"out-of-range"),
        (b"clwb  0 0x1000", b"bad-field"),
        (b"store 256 0x1007 0102", b"out-of-range"),
        (b"isPersist 0 0x1000 0", b"out-of-range"),
        (b"flush 0", b"bad-word"),
        (b"isPersist 0 0xffffffffffff 2", b"out-of-range"),
        (b"store 0 0xffffffffffff 0102", b"crosses-word"),
    ):
        yield TRACE[0] + event + b"\n", command.fault(2, kind), 0, {"fault_piece": 1}
    yield b"".join(TRACE[:3]) + b"foo", command.fault(4, b"truncated"), 0, {"fault_piece": 1}
    yield b"pmtrace 3\n", command.fault(1, b"bad-header"), 0, {"fault_piece": 1}
    # the fault is told before the read that would fail
    text = TRACE[0] + b"sfence 256\n"
    yield text, command.fault(2, b"out-of-range"), 0, {"fault": "read", "fault_at": len(text) + 1, "fault_piece": 1}


def faulty_script_before_a_failing_read(command):
    """A script is read to its end before its lines are judged, so the read that fails is told."""
    for text in (b"sfence 0\n", b"sfence\nflush\n"):
        yield text, FILE_FAULT, 1, {"fault": "read", "fault_at": len(text) + 1, "fault_piece": 1}


def one_byte_per_read(run):
    """`check`, `trim` and the stream of all worked traces, from reads of a byte each and of seven."""
    complaints = []
    for trace in all_traces():
        for words in (["check"], ["trim"], STREAM):
            whole, _ = run([*words, trace])
            for piece in (1, 7):
                answer, _ = run([*words, trace], fault_piece=piece)
                if answer != whole:
                    complaints.append(f"{words} {trace.stem}, reads of {piece}: {faulty.short(answer)}")
    return complaints


def stream_header_then_failing_read(command):
    """Reads of a byte each, one of which fails: the header is out once it has come, and what the stream has given out stays out."""
    text, _ = command.whole()
    stored = b"".join(TRACE[:2])
    out = [b"", TRACE[0], stored, stored, text]
    for at in range(1, len(text) + 2):
        right = FILE_FAULT._replace(out=out[text[: at - 1].count(b"\n")])
        yield text, right, 1, {"fault": "read", "fault_at": at, "fault_piece": 1}
    header = b"pmtrace 2 64\n"
    yield header, FILE_FAULT._replace(out=header), 1, {"fault": "read", "fault_at": len(header) + 1, "fault_piece": 1}


def stream_to_a_failing_writer(command):
    """Writes of a byte each, one of which fails."""
    text, _ = command.whole()
    for at in range(1, len(text) + 1):
        right = FILE_FAULT._replace(out=text[: at - 1])
        yield text, right, 1, {"fault": "write", "fault_at": at, "fault_piece": 1}
    yield text, Answer(0, text), 0, {"fault_piece": 1}


def the_bound(command):
    """Shell commands that write as many bytes as are judged, and one more, and the answers."""
    yield f"head -c {BOUND} /dev/zero | tr '\\0' a", command.fault(1, b"truncated")
    yield f"head -c {BOUND + 1} /dev/zero | tr '\\0' a", command.too_long()


def endless_readers(command):
    """Shell commands that write inputs which end late or never, and the answers."""
    too_long = command.too_long()
    letters = "tr '\\0' a < /dev/zero"
    if command.reads_script():
        yield "yes sfence", command.fault(1_000_001, b"too-many-events")
        yield f"echo flush; {letters}", command.fault(1, b"bad-word")
        yield f"echo sfence; {letters}", too_long
    else:
        yield "echo pmtrace 1; yes sfence 0", command.fault(1_000_002, b"too-many-events")
        yield f"echo pmtrace 3; {letters}", command.fault(1, b"bad-header")
        yield f"echo pmtrace 1; {letters}", too_long


def long_streams():
    """The same for the stream: it has given out what came before the text got too long, but nothing from an open flush on."""
    stores = TRACE[0] + b"store 0 0x0 01\n" * 100
    head = "echo pmtrace 1; yes store 0 0x0 01 | head -n 100"
    opened = f"{head}; echo clwb 0 0x0"
    letters = "tr '\\0' a < /dev/zero"
    too_long = Answer(3, stores, b"trace too long\n")
    yield f"{head}; {letters}", too_long
    yield f"{opened}; echo store 0 0x8 02; {letters}", too_long
    too_many = b"trace line 1000002: too-many-events\n"
    all_stores = TRACE[0] + b"store 0 0x0 01\n" * 1_000_000
    yield "echo pmtrace 1; yes store 0 0x0 01", Answer(3, all_stores, too_many)
    yield f"{opened}; yes sfence 1", Answer(3, stores, too_many)


def differences_over_long_inputs(program, command, inputs):
    """What is wrong with the answers to them."""
    complaints = []
    for shell, right in inputs:
        writer = subprocess.Popen(["bash", "-c", shell], stdout=subprocess.PIPE, stderr=subprocess.DEVNULL)
        with writer, writer.stdout as text:
            done = subprocess.run([program, *command.words], stdin=text, capture_output=True, timeout=60)
        answer = Answer(done.returncode, done.stdout, done.stderr)
        if answer != right:
            complaints.append(f"{command.words}, {shell}: {faulty.short(answer)}; wanted {faulty.short(right)}")
    return complaints


def explain_over_devices(run):
    """`explain` of the same trace: reads and writes of a byte each, one of which fails."""
    text = b"".join(TRACE)
    whole, _ = run(["explain"], text)
    complaints = [] if whole.status == 0 and whole.out else [f"explain: {faulty.short(whole)}"]
    for fault, calls in (("read", len(text) + 1), ("write", len(whole.out))):
        for at in range(1, calls + 1):
            answer, failed = run(["explain"], text, fault=fault, fault_at=at, fault_piece=1)
            action = b"cannot read standard input: " if fault == "read" else b"cannot write the answer: "
            out = whole.out[: at - 1] if fault == "write" else b""
            right = answer.faults.startswith(action) and answer.faults.endswith(b"Input/output error\n")
            if (answer.status, answer.out, failed) != (4, out, 1) or not right:
                complaints.append(f"explain, {fault} {at}: {failed} failed, {faulty.short(answer)}")
    return complaints


def finds_what_is_wrong(run):
    """A complaint is made where another answer is asked for, or where a call was to fail that is not made."""
    command = next(commands())
    text, right = command.whole()
    complaints = []
    for wrong in (
        (text, FILE_FAULT, 0, {}),
        (text, right, 1, {"fault": "read", "fault_at": 99}),
        (text, FILE_FAULT, 0, {"fault": "read", "fault_at": 1}),
    ):
        if not differences(run, command, [wrong]):
            complaints.append(f"no complaint: {wrong}")
    return complaints


TABLES = (every_cut, every_read, every_write, failing_writer, every_write_of_a_fault, hostile_bytes)


class Devices(UnderFaults):
    """Runs over devices, side by side; a check is of a command over inputs of a kind."""

    def setUp(self):
        self.run_over = partial(faulty.run, self.library, self.program)

    def test_commands(self):
        """Inputs that are cut or hostile, and reads and writes that fail."""
        calls = []
        for command in commands():
            more = faulty_script_before_a_failing_read if command.reads_script() else reading_in_pieces
            for table in (*TABLES, more):
                calls.append((f"{command.words[0]} {table.__name__}", partial(differences, self.run_over, command, table(command))))
        self.expect_of_all(calls)

    def test_long_inputs(self):
        """Inputs that end late or never."""
        inputs = [(command, itertools.chain(the_bound(command), endless_readers(command))) for command in commands()]
        inputs.append((stream(), long_streams()))
        self.expect_of_all([(command.words, partial(differences_over_long_inputs, self.program, command, shells)) for command, shells in inputs])

    def test_stream(self):
        tables = (stream_header_then_failing_read, stream_to_a_failing_writer)
        self.expect_of_all([(table.__name__, partial(differences, self.run_over, stream(), table(stream()))) for table in tables])

    def test_one_byte_per_read(self):
        self.expect_of_all([("worked traces", partial(one_byte_per_read, self.run_over))])

    def test_explain(self):
        self.expect_of_all([("explain", partial(explain_over_devices, self.run_over))])

    def test_finds_what_is_wrong(self):
        self.expect_of_all([("wrong answers", partial(finds_what_is_wrong, self.run_over))])
