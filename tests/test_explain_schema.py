"""The JSON of `explain` against its schema: lines of all traces, and lines that are wrong."""
import json
import os
import pathlib
import re
import subprocess
import tempfile

from checks import Checks
from explain_lines import NEVER_STORED, SCHEMA, lines_of, many_failures, refused
from explained import KINDS
from schemas import complaints, names_of, wrongs
from traces import all_traces

# Labels of any letters, what is asked for, and traces that reach the bounds of numbers.
ODD_LABELS = ("\u2028\U0001f600 \"\\ < main", " < main file.c:9", "file.c:7 call", "</script>\x85")
CHOICES = (
    [],
    *(["--only", kind] for kind in KINDS),
    ["--limit", "0"],
    ["--limit", "all"],
    ["--label", "c:", "--limit", str(2**64)],
    ["--from", "1", "--to", str(2**64 - 1), "--thread", "0", "--range", "0x0:281474976710656"],
    ["--ignore", "0x1000:8"],
)
BOUNDS = (
    "pmtrace 1\n" + 999_999 * "sfence 255\n" + "store 255 0xffffffffffff ff\n",
    "pmtrace 2 256\nstore 0 0x0 00\nisPersist 255 0x0 4096\nisOrderedBefore 0 0x0 4096 0xfffffffff000 4096\nstore 0 0x0 00\n",
    NEVER_STORED,
    many_failures(),
    # A counter that is stored again and again, and never flushed.
    "pmtrace 1\n" + 2 * "store 0 0x0 00\n",
    # A store that comes after the flush of its line, and waits for the next one.
    "pmtrace 1\nstore 0 0x0 01\nclwb 0 0x0\nstore 0 0x8 02\n" + 2 * "sfence 0\n" + "clwb 0 0x0\nsfence 0\n",
    # The second of three lines is not flushed.
    "pmtrace 1\nstore 0 0x0 01\nstore 0 0x40 02\nstore 0 0x80 03\nclwb 0 0x0\nclwb 0 0x80\nsfence 0\n" + 2 * "isPersist 0 0x0 192\n",
)


class Schema(Checks):
    """Lines of JSON are as docs/explain.schema.json says, and lines that are not are refused."""

    @classmethod
    def setUpClass(cls):
        with tempfile.TemporaryDirectory() as name:
            cls.file, found = pathlib.Path(name) / "t", {}
            texts = [trace.read_text() for trace in all_traces()]
            for text in (*texts, *BOUNDS):
                cls.file.write_text(text)
                found |= cls.told()
            for text in texts:
                found |= cls.told_of_cut(text)
        cls.lines = list(found)

    @classmethod
    def told(cls, *words):
        done = subprocess.run([os.environ["PMTRIM"], "explain", "--json", *words, cls.file], capture_output=True, timeout=120)
        return lines_of(done)

    @classmethod
    def told_of_cut(cls, text):
        """The lines of the trace as one that was cut, with labels, by all choices and of each failure."""
        cls.file.write_text(text)
        events, names = text.count("\n") - 1, cls.file.with_name("l")
        cls.file.with_name("t.cut").write_text(f"{events} it was cut\n")
        cls.file.with_name("t.missing").write_text("bytes 2 children\nfences 1 locks\nothers 3 flushes\n")
        names.write_text("".join(f"{number} {ODD_LABELS[number % 4]}\n" for number in range(1, events + 1) if number % 5))
        found = {line: None for words in CHOICES for line in cls.told("--labels", names, *words)}
        failing = {event for entry in map(json.loads, found) if entry["kind"] == "cause" for event in entry["events"]}
        return found | {line: None for event in sorted(failing)[:20] for line in cls.told("--failure", str(event))}

    def test_lines(self):
        """Each name of the schema is in a line, so it knows no more than is written."""
        self.expect_equal("the schema", refused(self.lines), [])
        unseen = [name for name in names_of(json.loads(SCHEMA.read_text())) if not any(f'"{name}"' in line for line in self.lines)]
        self.expect_equal("names that no line has", unseen, [])

    def test_many_lines(self):
        """Of the cache lines that lose a store the first hundred, and how many more there are."""
        stores = "".join(f"store 0 {0x1000 + 64 * line:#x} 01\n" for line in range(130))
        text = f"pmtrace 1\n{stores}isPersist 0 0x1000 1\n"
        done = subprocess.run([os.environ["PMTRIM"], "explain", "--json"], input=text.encode(), capture_output=True, timeout=120)
        (told,) = (entry for entry in map(json.loads, lines_of(done)) if entry["kind"] == "failure")
        wanted = [{"cache_line": hex(0x1000 + 64 * line), "persisted": 0, "stores": 1} for line in range(100)]
        self.expect_equal("lines", (told["lines"], told["more_lines"], told["whole_lines"]), (wanted, 30, 0))

    def test_wrong_lines(self):
        """Of each set of kinds, causes, reasons and mends one line, with each thing in it wrong in turn."""
        short = sorted((line for line in self.lines if len(line) < 3000), key=len)
        longest = {tuple(re.findall(r'"(?:kind|why|assertion|hint|reason|mend|cause)":"\w+"', line)): line for line in short}
        wrong = [(f"{told} in {line}", json.dumps(value)) for line in longest.values() for told, value in wrongs(json.loads(line))]
        judged_lines = zip(wrong, complaints(SCHEMA, [line for _, line in wrong]), strict=True)
        self.expect_equal("wrong lines that are accepted", [name for (name, _), told in judged_lines if not told][:5], [])
        line = next(line for line in self.lines if '"reason":"useless"' in line)
        told = complaints(SCHEMA, [line.replace('"useless"', '"forgotten"')])[0][0]
        self.expect("what is told", told.startswith("$.reason.reason: 'forgotten' is not one of"), told)
