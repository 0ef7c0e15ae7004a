"""The lines of source in the text of `explain`: where each stands, how it is shown, and what is not read. What is wanted is
written by hand."""
import os
import re
import subprocess

from checks import Checks
from screened import ROW, width_of

TRACE = """pmtrace 1
store 0 0x1000 01
clwb 0 0x1000
isPersist 0 0x1000 1
store 0 0x2000 02
"""
LABELS = ("put.c:3 put < main main.c:9", "put.c:4 put", "put.c:6 check", "stats.c:2 bump")
PUT = "void put(void)\n{\n    slot->value = value;\n\tflush(\tslot);\n}\nvoid check(void) { persisted(slot); }\n"
STORY = {1: "slot->value = value;", 2: "flush( slot);", 3: "void check(void) { persisted(slot); }"}
# A site that saves its stores by one caller alone, and the labels.
CALLED = "pmtrace 1\n" + "store 0 0x1000 01\nclwb 0 0x1000\nsfence 0\n" * 2 + "store 0 0x2000 01\nsfence 0\nsfence 0\nclwb 0 0x2000\nsfence 0\n"
CALLERS = [f"put.c:{line} put < main put.c:1" for line in (3, 4, 5) * 2] + [f"put.c:{line} put < other put.c:6" for line in (3, 5, 5, 4, 5)]
# A line of a file, and what stands there of it.
SHOWN = {
    b"    plain": "plain",
    b"\t\ttab\tinside\r": "tab inside",
    b"": "",
    b"   \t ": "",
    b"red \x1b[31m": "red \ufffd[31m",
    b"bell \x07 back \x08 delete \x7f": "bell \ufffd back \ufffd delete \ufffd",
    "csi \u009b31m next \u0085".encode(): "csi \ufffd31m next \ufffd",
    "if (a) { \u202e } \u2066 x \u2069 \u200f \u061c".encode(): "if (a) { \ufffd } \ufffd x \ufffd \ufffd \ufffd",
    "two\u2028lines\u2029".encode(): "two\ufffdlines\ufffd",
    b"latin \xe4 1": "latin \ufffd 1",
    "gr\u00fc\u00df \u6f22 \U0001f600".encode(): "gr\u00fc\u00df \u6f22 \U0001f600",
    b"a | b": "a | b",
}


def numbered(texts):
    return "".join(f"{number} {text}\n" for number, text in enumerate(texts, 1))


def sources_of(text):
    """The lines of source that rows of stories end in, by the numbers of the events."""
    rows = (ROW.match(line) for line in text.splitlines())
    return {int(row["event"]): row["rest"].partition(" | ")[2].strip() for row in rows if row and " | " in (row["rest"] or "")}


class Source(Checks):
    """Each test has a folder with a trace t, its labels l and sources in s."""

    def setUp(self):
        self.folder = self.new_folder()
        (self.folder / "s").mkdir()
        (self.folder / "s/put.c").write_text(PUT)
        self.write(TRACE, LABELS)

    def write(self, trace, labels):
        (self.folder / "t").write_text(trace)
        (self.folder / "l").write_text(numbered(labels))

    def run_with(self, *words):
        return subprocess.run([self.program, "explain", *words], cwd=self.folder, capture_output=True, timeout=60)

    def text(self, *words, source="s", status=1):
        """What `explain` writes with these words beside; nothing is said beside it."""
        done = self.run_with("--labels", "l", "--source", source, *words, "t")
        self.expect_equal(f"the status with {words}", (done.returncode, done.stderr), (status, b""))
        return done.stdout.decode()

    def rows(self, *words, **options):
        """The lines of source of the events of stories, by their numbers."""
        return sources_of(self.text(*words, **options))

    def lines_of(self, lines):
        """What stands of these lines of a file, by their numbers; each is named by a row."""
        (self.folder / "s/put.c").write_bytes(b"\n".join(lines) + b"\n")
        shown = {}
        for start in range(0, len(lines), 3):
            self.write(TRACE, [f"put.c:{start + at} put" for at in (1, 2, 3)])
            shown.update({start + event: text for event, text in self.rows().items()})
        return shown

    def test_story(self):
        """Each row of a story ends in its line of source, without the blanks at its start; a function that leaves no room for that goes."""
        text = self.text()
        self.expect_equal("the story", sources_of(text), STORY)
        self.expect("functions", "  put.c:3 put | slot" in text and "  put.c:4 put | flush" in text and "  put.c:6 | void" in text, text)
        (self.folder / "s/stats.c").write_text("int n;\nvoid bump(void) { n++; }\n")
        self.write(f"{TRACE}sfence 0\n", LABELS)
        self.expect_equal("and of a store that is lost", self.rows()[4], "void bump(void) { n++; }")

    def test_call(self):
        """So has the call by which alone stores are late, below what is told of callers."""
        self.write(CALLED, CALLERS)
        text = self.text(status=1)
        self.expect("the call", " by other callers: " in text and "\n      6 | void check(void) { persisted(slot); }\n" in text, text)

    def test_edited(self):
        """The line to edit stands whole, below its row if it has no room there."""
        long = f"flush(slot, {'x' * 60});"
        (self.folder / "s/put.c").write_text(PUT.replace("flush(\tslot);", long))
        text = self.text()
        self.expect("the line to edit", f"\n      4 | {long}\n" in text, text)

    def test_nothing_else(self):
        """Without the lines of source, the text is that without --source, if no function goes for them."""
        (self.folder / "s/put.c").write_text(PUT.replace(" persisted(slot); ", ""))
        plain = self.run_with("--labels", "l", "--limit", "all", "t").stdout.decode()
        text = "".join(f"{line.partition(' | ')[0].rstrip()}\n" for line in self.text("--limit", "all").splitlines())
        self.expect_equal("the rest", text.replace("note: no source line: stats.c: No such file or directory\n", ""), plain)
        self.expect_equal("none without --source", sources_of(plain), {})

    def test_first_word(self):
        """A frame names a line of source by its first word alone."""
        self.write(TRACE, ["put put.c:3", "put.c:4", "put.c:6 check < main put.c:1", "put.c"])
        self.expect_equal("lines", sorted(self.rows()), [2, 3])

    def test_signs(self):
        """No byte of a source file moves a cursor, colors or turns what follows."""
        wanted = {number: text for number, text in enumerate(SHOWN.values(), 1)}
        shown = self.lines_of(list(SHOWN))
        self.expect_equal("lines", {number: shown.get(number, "") for number in wanted}, wanted)

    def test_long(self):
        """A row has at most 100 columns, and ends in a mark if its line of source is cut; so has one that stands whole."""
        for line in (b"x" * 91, "\u6f22".encode() * 50, b" " * 5000 + b"y" * 1_000_000):
            (self.folder / "s/put.c").write_bytes(b"\n\n" + line + b"\n" + line + b"\n\n\n")
            shown = [told for told in self.text().splitlines() if told.endswith("\u2026")]
            self.expect(f"{len(line)} bytes", len(shown) > 3 and {width_of(told) for told in shown} <= {99, 100}, shown)

    def test_last_line(self):
        """The last line of a file may have no LF; the first one that a file has not is told, at the end."""
        (self.folder / "s/put.c").write_text("1\n2\n3\n4\n5\nlast")
        self.expect_equal("the last line", self.rows()[3], "last")
        (self.folder / "s/put.c").write_text("1\n2\n3\n")
        text = self.text()
        self.expect_equal("notes", [line for line in text.splitlines() if line.startswith("note: ")], ["note: no source line: put.c has no line 4"])

    def test_not_read(self):
        """The first file that is not read is told, with why, which changes neither the status nor what else is told."""
        (self.folder / "out.c").write_text("secret\n" * 9)
        (self.folder / "s/folder.c").mkdir()
        (self.folder / "s/zero.c").write_bytes(b"a\0b\n" * 9)
        with (self.folder / "s/large.c").open("wb") as large:
            large.truncate(16_777_217)
        os.symlink("../out.c", self.folder / "s/link.c")
        os.mkfifo(self.folder / "s/pipe.c")
        refused = {
            "gone.c": "No such file or directory",
            "../out.c": "it is not below the folder of --source",
            "../../../../../../etc/passwd": "it is not below the folder of --source",
            "/etc/passwd": "it is not below the folder of --source",
            "link.c": "it is not below the folder of --source",
            "folder.c": "it is no regular file",
            "pipe.c": "it is no regular file",
            "zero.c": "it has a zero byte, so it is no text",
            "large.c": "it has more than 16777216 bytes",
        }
        for name, why in refused.items():
            self.write(TRACE, [f"{name}:1 put", f"{name}:2 put", "put.c:6 check", f"{name}:1 bump"])
            text = self.text()
            notes = [line for line in text.splitlines() if line.startswith("note: no source line")]
            self.expect_equal(name, notes, [f"note: no source line: {name}: {why}"])
            self.expect(f"other lines beside {name}", " | void check" in text and "secret" not in text and "root:" not in text, text)

    def test_names(self):
        """A file may be named by its whole name, and DIR by another name of it."""
        os.symlink("s", self.folder / "other")
        for source in ("s/", "./s", "other", str(self.folder / "s")):
            self.expect_equal(f"a name below {source}", self.rows(source=source), STORY)
        self.write(TRACE, [*LABELS[:1], f"{self.folder}/s/put.c:4 put", *LABELS[2:]])
        self.expect("a whole name", " | flush( slot);" in self.text(source=str(self.folder / "s")))

    def test_screen(self):
        """A screen has 24 lines, also with lines of source."""
        events, labels = [], []
        for at in range(60):
            events += [f"store 0 {0x1000 + 64 * at:#x} 01", f"clwb 0 {0x1000 + 64 * at:#x}", f"isPersist 0 {0x1000 + 64 * at:#x} 1"]
            labels += [f"put.c:{1 + at % 6} put{at}", f"put.c:4 put{at}", f"put.c:6 check{at}"]
        self.write("pmtrace 1\n" + "\n".join(events) + "\n", labels)
        text = self.text()
        self.expect("24 lines", 12 <= text.count("\n") <= 24 and sources_of(text), text)

    def test_color(self):
        """Colors are around words, and change none of the text."""
        text = self.text("--color", "always")
        self.expect("colored", text.startswith("\x1b[1;31mFAIL:\x1b[0m "), repr(text))
        self.expect_equal("nothing but colors", re.sub("\x1b\\[[0-9;]*m", "", text), self.text())

    def test_words(self):
        """--source wants --labels and no --json, and a folder."""
        for words, status, told in (
            (["--source", "s", "t"], 2, b"'--source' wants '--labels'"),
            (["--source", "s", "--labels", "l", "--json", "t"], 2, b"'--json' has none"),
            (["--source", "none", "--labels", "l", "t"], 4, b"cannot open none: No such file or directory\n"),
        ):
            done = self.run_with(*words)
            self.expect(f"{words}", done.returncode == status and done.stdout == b"" and told in done.stderr, f"{done.returncode} {done.stderr}")
