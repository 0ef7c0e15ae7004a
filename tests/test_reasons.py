"""What stands below the fixed line of a fault, at a terminal or with --verbose: the file and the reason, in the words of `explain`."""
import os
import subprocess

from checks import Checks
from explain_faults import HEADER, REFUSED, SAVED
from terminal import shown_at_a_terminal

MISSING = "cannot open none: No such file or directory\n"
COMMANDS = (["check"], ["check", "-j", "4"], ["trim"], ["trim", "--stream"], ["fronts"])
# A file that is no trace, what is told of it, and the command that is hinted at for `check`.
FOREIGN = (
    (b"\x1f\x8b\x08\x00abc\n", "this is packed by gzip", "it is read unpacked, from a pipe: zcat t | pmtrim check"),
    (b"\x28\xb5\x2f\xfd\x24", "this is packed by zstd", "it is read unpacked, from a pipe: zstdcat t | pmtrim check"),
    (b"\xfd7zXZ\x00\x00", "this is packed by xz", "it is read unpacked, from a pipe: xzcat t | pmtrim check"),
    (b"BZh91AY", "this is packed by bzip2", "it is read unpacked, from a pipe: bzcat t | pmtrim check"),
    (b"\xef\xbb\xbfpmtrace 1\n", "this begins with a byte order mark", "it is read without the mark: tail -c +4 t | pmtrim check"),
    ("pmtrace 1\n".encode("utf-16"), "this is a text in UTF-16", "it is read as UTF-8: iconv -f UTF-16 -t UTF-8 t | pmtrim check"),
    (b"\x7fELF\x02\x01\x01\x00", "this is a program", "what it does is recorded by: pmtrim-record ./t"),
    (b"#!/bin/sh\n", "this is a program, by its first line", "what it does is recorded by: pmtrim-record ./t"),
    (b"\x00\x01\x02\n", "this is no text", "a trace is made by: pmtrim-record PROGRAM"),
)
# The text of a script s, the fixed line, and what stands below it.
SCRIPTS = (
    (b"sfence 0\n", "script 1 line 1: bad-field\n", "s:1: there is a field too many\n    sfence 0\nan sfence of a script is the word 'sfence' alone\n"),
    (b"sfence\nclwb\n", "script 1 line 2: bad-field\n", "s:2: the address is missing\n    clwb\na clwb of a script is 'clwb A': the address, after a single space\n"),
    (
        b"store 0x1000 1\n",
        "script 1 line 1: bad-field\n",
        "s:1: the byte string '1' is not spelled as in a trace\n    store 0x1000 1\n"
        "the byte string of a store is 1 to 8 pairs of digits 0-9 and a-f, without a prefix\n",
    ),
    (
        b"mfence\n",
        "script 1 line 1: bad-word\n",
        "s:1: 'mfence' is no event here\n    mfence\nan event is store, clwb, clflushopt, sfence, isPersist or isOrderedBefore\n",
    ),
    (b"sfence", "script 1 line 1: truncated\n", "s:1: the line does not end\n    sfence\neach line ends with LF, the last one too; the script may have been cut off here\n"),
    (b"pmtrace 1\n", "script 1 line 1: bad-word\n", "s:1: this is a trace, and no script\nhint: it is judged by: pmtrim check s\n"),
    (b"\x7fELF\x02\x01\x01\n", "script 1 line 1: bad-word\n", "s:1: this is a program\nhint: what it does is recorded by: pmtrim-record ./s\n"),
    (b"#!/bin/sh\n", "script 1 line 1: bad-word\n", "s:1: this is a program, by its first line\nhint: what it does is recorded by: pmtrim-record ./s\n"),
)


class Reasons(Checks):
    """Without --verbose the fixed line stands alone."""

    def setUp(self):
        self.folder = self.new_folder()

    def told(self, words, **options):
        options.setdefault("stdin", subprocess.DEVNULL)
        streams = {"stdout": subprocess.PIPE, **options}
        done = subprocess.run([self.program, *words], stderr=subprocess.PIPE, cwd=self.folder, timeout=120, **streams)
        return done.returncode, done.stdout or b"", done.stderr.decode()

    def expect_told(self, words, status, fixed, reason, **options):
        """The fixed line, and the reason below it with --verbose alone."""
        self.expect_equal(f"{words}", self.told(words, **options), (status, b"", fixed))
        verbose = [words[0], "--verbose", *words[1:]]
        self.expect_equal(f"{verbose}", self.told(verbose, **options), (status, b"", fixed + reason))

    def expect_trace_told(self, command, fault):
        """Below the fixed line of a refused trace t stands what `explain` tells of it."""
        place = ["0"] if command == ["fronts"] else []
        status, _, fixed = self.told([*command, "t", *place])
        self.expect(f"{command}: {fault}", status == 3 and fixed.count("\n") == 1 and fixed.startswith("trace "), fixed)
        told = self.told([*command, "-v", "t", *place])[2]
        self.expect_equal(f"{command} -v", told, fixed + fault)

    def test_refused_traces(self):
        for text, fault in REFUSED:
            (self.folder / "t").write_bytes(text)
            for command in COMMANDS:
                self.expect_trace_told(command, fault)

    def test_pieces(self):
        """A line that stands in one of the pieces that are read, at the edge of one, or in two of them."""
        for before in (*range(453, 457), 909, 910, 20000):
            (self.folder / "t").write_bytes(b"pmtrace 1\n" + b"sfence 0\n" * before + b"sfence 1\nsfence 256 0\nsfence 2\n" + b"sfence 0\n" * 900)
            fault = f"t:{before + 3}: there is a field too many\n    sfence 256 0\nan sfence is 'sfence T': the thread, after a single space\n"
            for command in (["check"], ["check", "-j", "2"], ["trim"]):
                self.expect_trace_told(command, fault)

    def test_long_lines(self):
        """Lines that are longer than a piece are shown from their beginning on."""
        (self.folder / "t").write_bytes(b"pmtrace 1\nsfence 0\n" + b"y" * 10000 + b"\nsfence 0\n")
        events = "an event is store, clwb, clflushopt, sfence, isPersist or isOrderedBefore\n"
        self.expect_trace_told(["check"], f"t:3: '{'y' * 80}...' is no event here\n    {'y' * 80}...\n{events}")

    def test_standard_input(self):
        fault = f"standard input:1: this is no header of a trace\n    pmtrace 3\n{HEADER}"
        for command in (["check"], ["trim"], ["trim", "--stream"]):
            self.expect_told(command, 3, "trace line 1: bad-header\n", fault, stdin=None, input=b"pmtrace 3\n")

    def test_foreign(self):
        for text, what, hint in FOREIGN:
            (self.folder / "t").write_bytes(text)
            fault = f"t:1: {what}\nhint: {hint}\n"
            self.expect_trace_told(["check"], fault)
            self.expect_equal("explain", self.told(["explain", "t"])[2], fault.replace("pmtrim check", "pmtrim explain"))
        name = "it's here.gz"
        (self.folder / name).write_bytes(b"\x1f\x8b")
        self.expect("a name with a blank", r"zcat 'it'\''s here.gz' | pmtrim trim" in self.told(["trim", "-v", name])[2])

    def test_piped(self):
        """What is hinted at reads the trace."""
        (self.folder / "t").write_bytes(SAVED)
        subprocess.run(["gzip", "t"], cwd=self.folder, check=True)
        hint = self.told(["check", "-v", "t.gz"])[2].rpartition("hint: it is read unpacked, from a pipe: ")[2]
        done = subprocess.run(["bash", "-c", hint.replace("pmtrim", '"$0"', 1), self.program], cwd=self.folder, capture_output=True)
        self.expect_equal(hint, (done.returncode, done.stdout), (0, b"events 3 lines 1\nkept 3 dropped 0\n"))

    def test_scripts(self):
        for text, fixed, reason in SCRIPTS:
            (self.folder / "s").write_bytes(text)
            self.expect_told(["record", "s"], 3, fixed, reason)
        (self.folder / "good").write_bytes(b"sfence\n")
        self.expect_told(["record", "good", "s"], 3, "script 2 line 1: bad-word\n", SCRIPTS[-1][2])
        self.expect_told(["record", "good", "none"], 4, "file fault\n", MISSING)

    def test_files(self):
        (self.folder / "t").write_bytes(SAVED)
        (self.folder / "d").mkdir()
        for command in COMMANDS:
            place = ["0"] if command == ["fronts"] else []
            self.expect_told([*command, "none", *place], 4, "file fault\n", MISSING)
            self.expect_told([*command, "d", *place], 4, "file fault\n", "cannot read d: Is a directory\n")
            with open("/dev/full", "wb") as full:
                self.expect_told([*command, "t", *place], 4, "file fault\n", "cannot write the answer: No space left on device\n", stdout=full)

    def test_terminal(self):
        """At a terminal the reason stands there without --verbose."""
        for words in (["check", "none"], ["trim", "none"], ["fronts", "none", "1"], ["record", "none"]):
            told = shown_at_a_terminal([self.program, *words], self.folder)[1].replace("\r\n", "\n")
            self.expect(f"{words}", f"file fault\n{MISSING}" in told, told)

    def test_build(self):
        """In the log of a build it stands there too."""
        for name, is_there in (("CI", True), ("GITHUB_ACTIONS", True), ("NO_SUCH_NAME", False)):
            told = self.told(["check", "none"], env={**os.environ, name: "true"})
            self.expect_equal(name, told, (4, b"", f"file fault\n{MISSING if is_there else ''}"))

    def test_tips(self):
        """A file, or a program of its own, in the place of a command."""
        (self.folder / "my trace").write_bytes(SAVED)
        status, out, fault = self.told(["my trace"])
        self.expect("a file", (status, out) == (2, b"") and fault == "error: 'my trace' is no command, but a file\ntip: pmtrim explain 'my trace'\n", fault)
        for name in ("replay", "suite", "lines"):
            status, out, fault = self.told([name, "my trace"])
            self.expect(name, (status, out, fault) == (2, b"", f"error: '{name}' is no command of pmtrim, but a program of its own\ntip: pmtrim-{name} --help\n"), fault)
        for words in (["none"], ["."], ["/dev/null"], ["check", "my trace", "my trace"], ["--frob", "my trace"]):
            status, out, fault = self.told(words)
            self.expect(f"{words}", (status, out) == (2, b"") and "tip: pmtrim" not in fault, fault)
