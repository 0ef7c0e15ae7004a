"""What `check` and `explain` say of a trace that lacks something, by the files beside it. tests/test_answers.py has the answers of `check`."""
import json
import subprocess

from checks import Checks, add_tests

TRACE = (
    "pmtrace 1\nstore 0 0x1000 01\nstore 0 0x1000 02\nclwb 0 0x1000\nsfence 1\nisPersist 0 0x1000 1\n"
    "isOrderedBefore 0 0x1000 1 0x1000 1\nclwb 0 0x1000\n"
)
REPORT = (
    "events 7 lines 1\nnever-persisted 1 flushed\noverwritten 1 by 2\nnever-persisted 2 flushed\nfence-without-flush 4\npersist 5 fail\n"
    "ordered 6 pass\nredundant-flush 7\nkept 4 dropped 3\n"
)
UNSEEN = "Not all that the recorder saw is in the trace:\n"
# What stands beside a trace: the file's ending and text, what is told first of it, whether what is never persisted is known to be lost,
# whether the verdicts are known, and what the JSON says of it: kinds, counts and words.
BESIDE = {
    "cut": ("cut", "7 a full disk\n", "The trace was cut after event 7: a full disk\n", False, True, [("cut", 7, "a full disk")]),
    "killed": ("cut", "0 the run was killed\n", "The trace was cut: the run was killed\n", False, True, [("cut", None, "the run was killed")]),
    "no room": ("cut", "", "The trace was cut\n", False, True, [("cut", None, "")]),
    "bytes": ("missing", "others 2 flushes\nbytes 3 children\n", f"{UNSEEN}  2 flushes\n  3 children\nBytes of the pools may ", False, False, [("others", 2, "flushes"), ("bytes", 3, "children")]),
    "fences": ("missing", "fences 1 locks", f"{UNSEEN}  1 locks\nEach may have been a fence: what passes here is true, ", True, True, [("fences", 1, "locks")]),
    "others": ("missing", "others 2 flushes\n", f"{UNSEEN}  2 flushes\n\n", True, True, [("others", 2, "flushes")]),
    "nothing known": ("missing", "", f"{UNSEEN}Bytes of the pools may ", False, False, [("bytes", None, "")]),
}
WRONG = ("bytes", "bytes 1", "bytes 1 ", "bytes 0 x", "bytes 01 x", "byte 1 x", " bytes 1 x", "bytes 1 x\x01", "bytes 1 x\r\n")
LOST, CLAIM = "pmtrace 1\nstore 0 0x1000 01\n", "isPersist 0 0x1000 1\n"
SAVED = "pmtrace 1\nstore 0 0x1000 01\nclwb 0 0x1000\nsfence 0\n"


class Check(Checks):
    """The trace t, in a folder of its own."""

    def setUp(self):
        self.folder = self.new_folder()
        (self.folder / "t").write_text(TRACE)

    def told(self, *words, text="", command="check"):
        done = subprocess.run([self.program, command, *words], input=text, capture_output=True, text=True, cwd=self.folder, timeout=60)
        return done.returncode, done.stdout, done.stderr

    def test_plain(self):
        self.expect_equal("nothing beside it", self.told("t"), (1, REPORT, ""))

    def tells_first(self, row):
        """Of a store that is lost, and a claim that passes: what is not known of them. The report and status of check are fixed."""
        ending, text, head, knows_losses, knows_verdicts, lacks = row
        (self.folder / f"t.{ending}").write_text(text)
        status, out, told = self.told("t")
        self.expect("check", (status, out) == (1, REPORT) and told.startswith(head) and told.endswith("\n\n"), told)
        self.expect_equal("by standard input", self.told(text=TRACE), (1, REPORT, ""))
        for name, trace, wanted in (("lost", LOST, knows_losses), ("saved", SAVED + CLAIM, False)):
            (self.folder / "t").write_text(trace)
            status, out, fault = self.told("t", command="explain")
            self.expect_equal(f"explain, {name}", (status, out.startswith(told), fault), (int(wanted), True, ""))
        self.expect_equal("the answer", "as far as the trace tells" in out, not knows_verdicts)
        status, out, _ = self.told("--json", "t", command="explain")
        found = [(lack["kind"], lack["count"], lack["what"]) for lack in json.loads(out.splitlines()[0])["lacks"]]
        self.expect_equal("the JSON", (status, found), (0, lacks))

    def test_wrong_lines_beside(self):
        for line in WRONG:
            (self.folder / "t.missing").write_text(f"others 1 x\n{line}")
            for command in ("check", "explain"):
                status, out, fault = self.told("t", command=command)
                self.expect(f"{command}, {line!r}", (status, out) == (3, "") and fault.startswith("t.missing:2: the line does not say what is missing\n"), fault)


add_tests(Check, Check.tells_first, BESIDE)
