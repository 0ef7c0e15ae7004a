"""Words, statuses and files: what the documents do not show."""
import os
import shutil

from checks import Checks
from program import TOP
from running import run, run_as_shown
from terminal import shown_at_a_terminal

TRACE, LOST = "examples/one_persist.trace", "examples/mark_too_early.trace"
COMMANDS = ("", "check", "explain", "trim", "fronts", "record", "draw", "image", "slice", "stat", "parts")
# Of each answer the status and a part; a usage fault names the bad word and what is allowed.
USAGE = (
    ("--version", 0, "pmtrim "),
    ("help trim", 0, "Usage: pmtrim trim"),
    ("help explain", 0, "Usage: pmtrim explain"),
    ("help", 0, "Usage: pmtrim <"),
    ("frob", 2, "'frob'"),
    ("trim --frob", 2, "'--frob'"),
    ("trim --workers 3", 2, "'3'"),
    ("trim --workers 3", 2, "1, 2, 4, 8, 16"),
    ("trim --stream --workers 3", 2, "'3'"),
    ("check -j 3", 2, "'3'"),
    (f"check -j 4 {TRACE}", 0, "kept 3 dropped 0"),
    (f"check -j4 {TRACE}", 0, "kept 3 dropped 0"),
    (f"trim --workers=4 {TRACE}", 0, "sfence 0"),
    ("check --workers 04", 2, "'04'"),
    ("check --stream t", 2, "'--stream'"),
    (f"fronts {TRACE} 01", 2, "'01'"),
    (f"fronts {TRACE} 01", 2, "a decimal number"),
    (f"fronts {TRACE} 18446744073709551616", 2, "'18446744073709551616'"),
    (f"fronts {TRACE} +1", 2, "'+1'"),
    (f"fronts {TRACE}", 2, "PLACE"),
    ("trim a b", 2, "'b'"),
    ("record", 2, "SCRIPT"),
    (f"record{' x' * 257}", 2, ""),
    # usage comes before files, files before what stands in them
    ("trim --workers 3 FOLDER/none", 2, "'3'"),
    ("fronts FOLDER/none x", 2, "'x'"),
    ("trim FOLDER/none", 4, "file fault"),
    ("fronts FOLDER/none 1", 4, "file fault"),
    ("trim FOLDER", 4, "file fault"),
    (f"fronts {TRACE} 18446744073709551615", 2, "place past end 3"),
)
# On a trace that comes by standard input.
DASH = (
    ("trim -", 0, "sfence 0"),
    ("trim --stream -", 0, "sfence 0"),
    ("check -", 0, "kept 3 dropped 0"),
    ("explain -", 0, "3 events"),
    ("draw -", 0, "<svg"),
    ("fronts - 3", 0, "place 3 lines 1"),
    ("image --list -", 0, "--at 1"),
    ("image --at 1 -", 2, "'--pool' and '--origin'"),
    ("slice --failure 1 -", 2, "event 1 is no assertion that a crash can violate"),
)
SCRIPTS = {
    "good": "store 0x1000 01\nclwb 0x1000\nsfence\n", "bad": "sfence 0\n", "empty": "", "million": "sfence\n" * 1_000_000,
    "longer": "sfence\n" * 1_000_001, "flush": "clwb 0x1000\nsfence\n", "clflush": "sfence\nclflush 0x1000\n", "mfence": "mfence\n",
}
# The first script that is refused is told. A million events are recorded, and no more. The events of version 2 are no words.
REFUSED = (
    ("good bad none", 3, "script 2 line 1: bad-field"),
    ("good none bad", 4, "file fault"),
    ("million good", 3, "trace full"),
    ("longer", 3, "script 1 line 1000001: too-many-events"),
    ("good longer bad", 3, "script 2 line 1000001: too-many-events"),
    ("good clflush mfence", 3, "script 2 line 2: bad-word"),
    ("mfence clflush", 3, "script 1 line 1: bad-word"),
    (" ".join(["flush"] * 257), 2, ""),
)
# Commands with an answer of several lines.
ANSWERS = (
    f"explain {LOST}", f"explain --json {LOST}", f"explain --html {LOST}", f"draw {LOST}", f"slice --failure 7 {LOST}", f"image --list {LOST}",
    f"image --failure 7 --pool FOLDER/base --origin 0x1000 {LOST}", "--help", "help explain", "--version",
)


class Words(Checks):
    """Each with what it writes, to both streams."""

    def setUp(self):
        self.folder = self.new_folder()

    def told(self, words, **options):
        return run_as_shown([self.program, *words.replace("FOLDER", str(self.folder)).split()], **options)

    def expect_part(self, words, status, part, **options):
        found, told = self.told(words, **options)
        self.expect(words[:99], found == status and part in told, f"status {found}, wanted {status}; it wrote {told[:999]!r}, wanted {part!r} in it")

    def expect_told(self, words, status, wanted, **options):
        self.expect_equal(words, self.told(words, **options), (status, wanted))

    def test_help(self):
        for command in COMMANDS:
            self.expect_part(f"{command} --help", 0, "Statuses: ")
            self.expect_part(f"{command} --help", 0, "Example: pmtrim")

    def test_usage(self):
        for row in USAGE:
            self.expect_part(*row)

    def record(self, names):
        return "record " + " ".join(f"FOLDER/{name}" for name in names.split())

    def put(self, *names):
        for name in names:
            (self.folder / name).write_text(SCRIPTS[name])

    def test_scripts(self):
        self.put(*SCRIPTS)
        for names, status, part in REFUSED:
            self.expect_part(self.record(names), status, part)
        self.expect_told(self.record("empty empty"), 0, "pmtrace 1\n")

    def test_as_many_scripts_as_there_may_be(self):
        """Each is a part of what is recorded."""
        self.put("flush")
        status, told = self.told(self.record(" ".join(["flush"] * 256)))
        wanted = [f"{event} {thread}{place}" for event, place in (("clwb", " 0x1000"), ("sfence", "")) for thread in range(256)]
        self.expect("256 scripts", status == 0 and sorted(told.splitlines()) == sorted(["pmtrace 1", *wanted]), told[:300])

    def test_million_events(self):
        self.put("million", "empty")
        self.expect_told(self.record("million empty"), 0, "pmtrace 1\n" + "sfence 0\n" * 1_000_000)
        self.expect_told("trim", 0, "pmtrace 1\n", stdin=None, input=b"pmtrace 1\n" + b"sfence 0\n" * 1_000_000)

    def test_devices_that_are_full_or_closed(self):
        with open("/dev/full", "wb") as full:
            told = run([self.program, "trim", TRACE], stdout=full)
            self.expect_equal("a full device", (told.status, told.err), (4, "file fault\n"))
            told = run([self.program, "trim", self.folder / "none"], stderr=full)
            self.expect_equal("a fault that can not be written", (told.status, told.out), (4, ""))
        closed = run(["sh", "-c", 'exec "$@" <&-', "sh", self.program, "trim", TRACE])
        self.expect("no standard input, and none needed", closed.status == 0 and "sfence 0" in closed.out, closed)
        shutil.copy(TOP / TRACE, self.folder / "-")
        self.expect_part("trim ./-", 0, "sfence 0", cwd=self.folder)

    def test_a_dash_is_standard_input(self):
        for row in DASH:
            with open(TOP / TRACE, "rb") as trace:
                self.expect_part(*row, stdin=trace)

    def test_a_pipe_whose_reader_has_gone(self):
        """Quiet, but for the commands whose fault lines are fixed."""
        (self.folder / "base").write_bytes(bytes(4096))
        lost = (f"check {LOST}", f"check -v {LOST}"), (4, "file fault\n"), (4, "file fault\ncannot write the answer: Broken pipe\n")
        wanted = {words: (int(words.startswith("explain")), "") for words in ANSWERS} | dict(zip(lost[0], lost[1:]))
        for words, answer in wanted.items():
            self.expect_equal(f"a pipe that nobody reads: {words}", self.without_reader(words), answer)
        for words in ANSWERS:
            with open("/dev/full", "wb") as full:
                told = self.told_to(full, words)
            self.expect_equal(f"a full device: {words}", told, (4, "cannot write the answer: No space left on device\n"))

    def told_to(self, place, words):
        """The status, and what stands on standard error."""
        return run([self.program, *words.replace("FOLDER", str(self.folder)).split()], stdout=place)[::2]

    def without_reader(self, words):
        reader, writer = os.pipe()
        os.close(reader)
        with open(writer, "wb") as pipe:
            return self.told_to(pipe, words)

    def test_at_a_terminal(self):
        """It is said what is waited for."""
        told = shown_at_a_terminal([self.program, "check"])
        self.expect("a terminal", told[0] == 0 and "reading a trace from the terminal" in told[1], told)
        told = shown_at_a_terminal([self.program, "check", TRACE])
        self.expect("a terminal that is not read", told[0] == 0 and "terminal" not in told[1] and "events 3" in told[1], told)
