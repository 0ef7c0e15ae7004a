"""The faults of `explain`: texts, words and files that it refuses, and what it says of each."""
import subprocess

from checks import Checks
from explain_faults import BAD_LABELS, BAD_RANGES, BAD_WORDS, HEADER, REFUSED, SAVED


class Faults(Checks):
    """Each is told on standard error alone, with its status."""

    def setUp(self):
        self.folder = self.new_folder()
        self.trace, self.labels = self.folder / "t", self.folder / "l"

    def told(self, words, **options):
        options.setdefault("stdin", subprocess.DEVNULL)
        streams = {"capture_output": "stdout" not in options, "cwd": self.folder, "timeout": 120}
        done = subprocess.run([self.program, "explain", *words], **streams, **options)
        return done.returncode, done.stdout or b"", done.stderr.decode()

    def expect_fault(self, name, answer, status, fault):
        self.expect_equal(name, answer, (status, b"", fault))

    def test_refused_traces(self):
        for text, fault in REFUSED:
            self.trace.write_bytes(text)
            self.expect_fault(f"the trace {text[:40]}", self.told(["t"]), 3, fault)
        told = self.told([], stdin=None, input=b"pmtrace 3\n")
        self.expect_fault("standard input", told, 3, f"standard input:1: this is no header of a trace\n    pmtrace 3\n{HEADER}")

    def test_bad_labels(self):
        self.trace.write_bytes(SAVED)
        for text, fault in BAD_LABELS:
            self.labels.write_bytes(text)
            self.expect_fault(f"the labels {text[:40]}", self.told(["--labels", "l", "t"]), 3, fault)

    def test_bad_ranges(self):
        self.trace.write_bytes(SAVED)
        for text, fault in BAD_RANGES:
            (self.folder / "r").write_bytes(text)
            self.expect_fault(f"the ranges {text[:40]}", self.told(["--ignore-file", "r", "t"]), 3, fault)

    def test_bad_words(self):
        self.trace.write_bytes(SAVED)
        self.labels.write_text("1 a\n")
        for words, part in BAD_WORDS:
            status, out, fault = self.told(words)
            self.expect(f"the words {words}", (status, out) == (2, b"") and part in fault, f"{status} {out} {fault}, wanted 2 and {part!r}")

    def test_files(self):
        self.trace.write_bytes(SAVED)
        (self.folder / "d").mkdir()
        missing = "No such file or directory\n"
        self.expect_fault("no trace", self.told(["none"]), 4, f"cannot open none: {missing}")
        self.expect_fault("no labels", self.told(["--labels", "none", "t"]), 4, f"cannot open none: {missing}")
        self.expect_fault("no ranges", self.told(["--ignore-file", "none", "t"]), 4, f"cannot open none: {missing}")
        told = self.told(["--labels", "none.labels", "none"])
        self.expect_fault("labels before the trace", told, 4, f"cannot open none.labels: {missing}")
        self.expect_fault("a folder", self.told(["d"]), 4, "cannot read d: Is a directory\n")
        with open("/dev/full", "wb") as full:
            told = self.told(["t"], stdout=full, stderr=subprocess.PIPE)
        self.expect_fault("a full device", told, 4, "cannot write the answer: No space left on device\n")
