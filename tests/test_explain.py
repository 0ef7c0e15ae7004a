"""What `explain` says: the JSON of small random traces against explained.py, what stands on their screens, and texts and entries by hand."""
import json
import os
import random
import re
import subprocess

from checks import Checks, add_tests
from crowded import random_trace
from explain_lines import NEVER_STORED, lines_of, many_failures, refused
from explained import KINDS, Explained, judged, with_events
from machine import spelled, text_of
from program import TOP
from running import run
from screened import LINES, WIDTH, Screen, width_of, wrong_screen
from terminal import shown_at_a_terminal

TEXTS = TOP / "examples/explain"
PLACES = (TOP / "examples", TOP / "tests/traces")
TRACES = 400


def with_halves(choose, trace):
    """The trace, at times with two stores by one thread to both sides of a line's end."""
    if choose.random() < 0.7:
        return trace
    thread, end = choose.randrange(2), 0x1000 + trace.size
    below, above = choose.choice((1, 4, 7)), choose.choice((1, 1, 2, 4))
    halves = [("store", thread, end - below, bytes(below)), ("store", thread, end, bytes(above))]
    choose.shuffle(halves)
    for half in halves:
        at = choose.randrange(len(trace.events) + 1) if half is halves[0] else choose.randrange(at, min(at + 3, len(trace.events) + 1))
        trace = with_events(trace, at, [half])
    return trace


def with_marks(choose, trace):
    """The trace, at times with isOrderedBefore whose second range lies in two cache lines."""
    for _ in range(choose.choice((0, 0, 0, 1, 3))):
        length = choose.choice((2, 8, trace.size))
        mark = 0x1000 + choose.randrange(1, 3) * trace.size - choose.randrange(1, length)
        claim = ("isOrderedBefore", choose.randrange(2), 0x1000, 8, mark, length)
        trace = with_events(trace, choose.randrange(len(trace.events) + 1), [claim])
    return trace


def random_words(choose, trace):
    """Ranges and places to ignore, labels and a limit."""
    addresses = [event[2] for event in trace.events if event[0] == "store"]
    ignored = [(choose.choice(addresses) + choose.choice((-1, 0)), choose.choice((1, 2, 8, 300))) for _ in range(choose.randrange(3)) if addresses]
    lines = choose.choice((3, 99))
    callers = ("", " < main file.c:9", " < other file.c:7 < main file.c:9", " <")
    labels = {number: f"file.c:{choose.randrange(1, 1 + lines)} call{choose.choice(callers)}" for number in trace.numbers if choose.random() < 0.5}
    limit = choose.choice((0, 1, 2, 10, 10))
    named = [choose.choice((*labels.values(), "file.c:*", "file.c:1 cal")).split(" < ")[0] for _ in range(choose.randrange(3)) if choose.random() < 0.5]
    places = [f"{name[: choose.randrange(len(name))]}*" if choose.random() < 0.3 else name for name in named]
    return ignored, places if labels else [], labels, limit


def ignoring_words(choose, ignored, places, file):
    """The words that name these ranges and places, or a file with them."""
    lines = [*(f"{start:#x}:{length}" for start, length in ignored), *(f"label {place}" for place in places)]
    if choose.random() < 0.7:
        return [word for line in lines for word in (("--ignore-label", line[6:]) if line.startswith("label ") else ("--ignore", line))]
    choose.shuffle(lines)
    file.write_bytes(text_of(lines))
    return ["--ignore-file", file]


def random_choice(choose, trace, labels):
    """Which findings are asked for, and the words for that."""
    asked = {}
    if choose.random() < 0.3:
        asked["only"] = choose.choice(KINDS)
    if choose.random() < 0.3:
        asked["thread"] = choose.randrange(3)
    if choose.random() < 0.2:
        asked["range"] = {"address": 0x1000 + choose.choice((-1, 0, 1, trace.size - 1, trace.size)), "length": choose.choice((1, 2, trace.size))}
    if choose.random() < 0.2:
        asked["from"] = choose.randrange(1, len(trace.events) + 2)
    if choose.random() < 0.2:
        asked["to"] = choose.randrange(asked.get("from", 1), len(trace.events) + 3)
    if labels and choose.random() < 0.2:
        asked["label"] = choose.choice(("1", "c:2", "call", "file.c:3"))
    if choose.random() < 0.1:
        # the one event that --failure asks for, with what else is asked for
        asked |= {"only": "failure", "from": (event := choose.choice(trace.numbers)), "to": event}
    spelled_range = {"range": "{address:#x}:{length}".format(**asked["range"])} if "range" in asked else {}
    words = [word for name, value in {**asked, **spelled_range}.items() for word in (f"--{name.replace('_', '-')}", str(value))]
    return asked, words


def compare(program, folder, choose, told):
    """What is wrong with the answer to one random trace, if anything, and that trace; lines of JSON are added to what was told."""
    head, trace = random_trace(choose)
    trace = with_marks(choose, with_halves(choose, trace))
    ignored, places, labels, limit = random_words(choose, trace)
    file, names = folder / "trace", folder / "labels"
    file.write_bytes(text_of([head, *map(spelled, trace.events)]))
    names.write_bytes(text_of(f"{number} {label}" for number, label in labels.items()))
    asked, chosen = random_choice(choose, trace, labels) if choose.random() < 0.5 else ({}, [])
    explained = Explained(trace, ignored, labels, asked, places)
    words = ignoring_words(choose, ignored, places, folder / "ignored")
    words += ["--limit", str(limit)] * (limit != 10) + ["--labels", names] * bool(labels) + chosen
    done = subprocess.run([program, "explain", *words, "--json", file], capture_output=True, timeout=120)
    told.update(lines_of(done))
    status = explained.told.status()
    wrong = None
    if (done.returncode, done.stderr) != (status, b""):
        wrong = f"status {done.returncode}, wanted {status}: {done.stderr.decode()}"
    wrong = wrong or judged(explained, done.stdout, limit)
    if not wrong and explained.is_whole():
        screen = [word for at, word in enumerate(words) if word != "--limit" and words[at - 1 : at] != ["--limit"]]
        screen = [str(word).removeprefix(f"{folder}/") for word in screen]
        wrong = wrong_screen(Screen(program, screen, file.name, cwd=folder))
    return wrong, f"{' '.join(map(str, words))}\n{file.read_text()}"


TWO_LOST = "pmtrace 1\nstore 0 0x1000 0102\nstore 3 0x1002 0304\n"
ALL_IN_PARTS = ["--ignore", "0x1003:281474976706557", "--ignore", "0xfff:3", "--ignore", "0x1001:2"]

TABLES = ("entry", "place")

# A trace, words, the status, how many stores are ignored, and the kinds of what is told, each with the numbers of the events in it.
WORKED = (
    (TWO_LOST, [], 1, 0, [("never_persisted", [1, 2])]),
    (TWO_LOST, ["--ignore", "0x1000:3"], 1, 1, [("never_persisted", [2, 2])]),
    (TWO_LOST, ALL_IN_PARTS, 0, 2, []),
    (NEVER_STORED, [], 1, 0, [("cause", [4]), ("failure", [4]), ("unwritten", [1]), ("unwritten", [3]), ("unwritten", [5])]),
    (NEVER_STORED, ["--limit", "0"], 1, 0, []),
)


def events_of(entry):
    """The numbers of the events that an entry of the JSON is about."""
    return entry["events"] if "events" in entry else [entry[word]["event"] for word in ("event", "first", "last") if word in entry]


# Two places that lose a store, one of which overwrites one too, and their labels.
OF_PLACES = "pmtrace 1\nstore 0 0x1000 01\nstore 0 0x1000 02\nstore 0 0x2000 01\n"
PLACE_LABELS = "1 a.c:1 f < c.c:3 main\n2 a.c:1 f\n3 a.c:12 g < a.c:1 f\n"

# Words, the status, and how many stores are ignored that are never persisted, and overwritten; and of each place, in their order.
IGNORED_PLACES = (
    ([], 1, (0, 0, [0, 0])),
    (["--ignore-label", "a.c:1 f"], 1, (2, 1, [0, 2])),
    (["--ignore-label", "a.c:12 g"], 0, (1, 0, [0, 1])),
    (["--ignore-label", "a.c:12 g", "--ignore-label", "a.c:1 f"], 0, (3, 1, [2, 1])),
    (["--ignore-label", "a.c:1*"], 0, (3, 1, [2, 1])),
    (["--ignore-label", "a.c:1"], 1, (0, 0, [0, 0])),
    (["--ignore-label", "c.c:3 main"], 1, (0, 0, [0, 0])),
    (["--ignore-label", "a.c:1 f", "--ignore", "0x2000:1"], 0, (3, 1, [2, 1])),
)


class Explain(Checks):
    """What is told, as text and as JSON."""

    def test_random_traces(self):
        choose, folder, told = random.Random(17), self.new_folder(), {}
        for number in range(TRACES):
            wrong, trace = compare(self.program, folder, choose, told)
            self.expect(f"random trace {number}", wrong is None, f"{wrong}\nof {trace}")
        self.expect_equal("the schema", refused(told), [])

    def check_text(self, path):
        """A text NAME.text is what is said of the trace NAME.trace; a first line '$ WORD ..' has further words."""
        first, _, rest = path.read_text().partition("\n")
        words, wanted = (first[2:].split(" "), rest) if first.startswith("$ ") else ([], f"{first}\n{rest}")
        trace = next(folder / f"{path.stem}.trace" for folder in PLACES if (folder / f"{path.stem}.trace").exists())
        done = self.explain(*words, os.path.relpath(trace, path.parent), folder=path.parent)
        told = done.stdout.decode() + done.stderr.decode()
        self.expect(f"the text of {path.stem}", told == wanted and done.returncode in (0, 1), f"it wrote\n{told}\nwanted\n{wanted}")

    def explain(self, *words, folder=None):
        return subprocess.run([self.program, "explain", *words], capture_output=True, timeout=120, cwd=folder)

    def test_worked(self):
        """Stores of which all bytes are ignored, and assertions on bytes that were never stored; the answers are written by hand."""
        file = self.new_folder() / "worked"
        for text, words, status, ignored, wanted in WORKED:
            file.write_text(text)
            done = self.explain(*words, "--json", file)
            summary, *entries = map(json.loads, done.stdout.splitlines())
            told = [(entry["kind"], events_of(entry)) for entry in entries if entry["kind"] not in TABLES]
            right = (done.returncode, summary["ignored_never_persisted"], told) == (status, ignored, wanted)
            self.expect(f"{words} of\n{text}", right, f"status {done.returncode}, {done.stdout.decode()}, wanted {status} {ignored} {wanted}")

    def test_ignored_places(self):
        """Stores of places that are ignored; the answers are written by hand."""
        folder = self.new_folder()
        (folder / "t").write_text(OF_PLACES)
        (folder / "l").write_text(PLACE_LABELS)
        for words, status, counts in IGNORED_PLACES:
            done = self.explain("--labels", "l", *words, "--json", "t", folder=folder)
            summary, *entries = map(json.loads, done.stdout.splitlines())
            told = (summary["ignored_never_persisted"], summary["ignored_overwritten"], [entry["ignored"] for entry in entries if entry["kind"] == "place"])
            self.expect_equal(f"{words}", (done.returncode, *told), (status, *counts))
        (folder / "r").write_text("0x1000:8\nlabel a.c:1*\n")
        done = self.explain("--ignore-file", "r", "t", folder=folder)
        told = " ".join(done.stdout.decode().split())
        self.expect("places of a trace without labels", done.returncode == 1 and "; 2 never saved, as ignored." in told, told)

    def told(self, text, *words):
        """What is told of a trace."""
        file = self.new_folder() / "groups"
        file.write_text(text)
        return self.explain(*words, file).stdout.decode()

    def test_out(self):
        """The answer goes to a file, which is none of those that are read."""
        folder = self.new_folder()
        (folder / "t").write_text(TWO_LOST)
        (folder / "l").write_text("1 a\n")
        for words in ([], ["--json"], ["--html", "--labels", "l"]):
            told = self.explain(*words, "t", folder=folder).stdout
            for option in (["--out", "o"], ["-o", "o"], ["-oo"]):
                done = self.explain(*words, *option, "t", folder=folder)
                written = (folder / "o").read_bytes() if (folder / "o").exists() else None
                self.expect_equal(f"{words} {option}", (done.returncode, done.stdout, written), (1, b"", told))
                (folder / "o").unlink(missing_ok=True)
            self.expect_equal(f"{words} -o -", self.explain(*words, "-o", "-", "t", folder=folder).stdout, told)
        (folder / "linked").hardlink_to(folder / "t")
        for words in (["-o", "t", "t"], ["-o", "l", "--labels", "l", "t"], ["-o", "./t", "t"], ["-o", "linked", "t"]):
            done = self.explain(*words, folder=folder)
            self.expect(f"{words}", done.returncode == 2 and b"is read, and can not be written" in done.stderr, done.stderr)
        self.expect_equal("both are as they were", ((folder / "t").read_text(), (folder / "l").read_text()), (TWO_LOST, "1 a\n"))
        (folder / "put.c").write_text("put();\n")
        (folder / "l").write_text("1 put.c:1 put\n")
        for words in ([], ["--html"]):
            done = self.explain(*words, "--source", ".", "--labels", "l", "-o", "put.c", "t", folder=folder)
            self.expect(f"a file of source, {words}", done.returncode == 2 and b"'put.c' is read, and can not be written" in done.stderr, done.stderr)
            self.expect_equal("it is as it was", (folder / "put.c").read_text(), "put();\n")
        done = self.explain("-o", "/dev/full", "t", folder=folder)
        self.expect_equal("a full device", (done.returncode, done.stderr), (4, b"cannot write /dev/full: No space left on device\n"))
        done = self.explain("-o", "none/o", "t", folder=folder)
        self.expect_equal("no folder", (done.returncode, done.stderr), (4, b"cannot create none/o: No such file or directory\n"))

    def test_colors(self):
        """Colors stand round the words that begin paragraphs, and only where they are asked for."""
        file = self.new_folder() / "t"
        file.write_text(TWO_LOST)
        plain = self.explain(file).stdout
        self.expect("none in a pipe", b"\x1b" not in plain and plain == self.explain("--color", "auto", file).stdout == self.explain("--color", "never", file).stdout)
        colored = self.explain("--color", "always", file).stdout
        self.expect_equal("colors take no place", re.sub(rb"\x1b\[[0-9;]*m", b"", colored), plain)
        heads = re.findall(rb"^\x1b\[1(?:;3[0-9])?m([A-Za-z ]+:)\x1b\[0m", colored, re.M)
        self.expect_equal("what is colored", heads, re.findall(rb"^(LOST:|    fix:|next:)", plain, re.M))
        self.expect("JSON has none", b"\x1b" not in self.explain("--json", "--color", "always", file).stdout)
        for known, wanted in (({}, True), ({"NO_COLOR": "1"}, False), ({"NO_COLOR": ""}, True), ({"TERM": "dumb"}, False), ({"NO_COLOR": "1" * 100}, False)):
            shown = self.at_terminal(file, known)
            self.expect(f"at a terminal with {known}", "never saved" in shown and ("\x1b[1;31mLOST:" in shown) == wanted, shown[:500])

    def at_terminal(self, file, known):
        known = [f"{name}={value}" for name, value in ({"TERM": "xterm"} | known).items()]
        return shown_at_a_terminal(["env", "-u", "NO_COLOR", *known, self.program, "explain", file])[1]

    def test_long_labels(self):
        """A label that is wider than a row, of letters that take two columns: no row of the story is wider than the screen."""
        folder = self.new_folder()
        (folder / "t").write_text("pmtrace 1\nstore 0 0x7f0000001000 0102030405060708\nisPersist 0 0x7f0000001000 8\n")
        (folder / "l").write_text("1 " + 60 * "\u6587" + "\n2 claim.c:7 check < main.c:9\n")
        for labels in ("1 " + 60 * "\u6587" + "\n2 claim.c:7 check < main.c:9\n", "2 " + 300 * "x" + "\n"):
            (folder / "l").write_text(labels)
            lines = self.explain("--labels", "l", "t", folder=folder).stdout.decode().splitlines()
            wide = [line for line in lines if width_of(line) > WIDTH]
            self.expect("long labels", not wide and any(line.endswith("\u2026") for line in lines), "\n".join(lines))

    def test_many_labels(self):
        """A labels file of more bytes than a trace may have."""
        folder = self.new_folder()
        with open(folder / "l", "w") as labels:
            labels.writelines(f"{number} save.c:3 {80 * 'x'}\n" for number in range(1, 1_000_000))
            labels.write("1000000 claim.c:7 check\n")
        stores = 999_999 * "store 0 0x1000 01\n"
        (folder / "t").write_text(f"pmtrace 1\n{stores}isPersist 0 0x1000 1\n")
        answer = self.explain("--json", "--only", "failure", "--labels", folder / "l", folder / "t").stdout
        told = [json.loads(line) for line in answer.splitlines()]
        labels = [(row["event"]["label"], row["lost"]["store"]["label"]) for row in told if row["kind"] == "failure"]
        self.expect_equal("labels of 96 MB", labels, [("claim.c:7 check", f"save.c:3 {80 * 'x'}")])

    def test_many_failures(self):
        """How much is told where much fails."""
        count = len(self.told(many_failures()).splitlines())
        self.expect("the text of 300 failures", count <= LINES, f"{count} lines, wanted at most {LINES}")
        file = self.new_folder() / "many"
        file.write_text(many_failures())
        told = [self.explain("--failure", "513", *more, file).stdout for more in ([], ["--limit", "all"])]
        self.expect_equal("a failure asked for is told in full", *told)
        size = len(self.told(many_failures(), "--json"))
        self.expect("the JSON of 300 failures", size < 2_000_000, f"{size} bytes, wanted less than 2000000")
        stores = "".join(f"store 0 {64 * number:#x} 01\n" for number in range(500))
        claims = "".join(f"isPersist {thread} {64 * thread:#x} 1\n" for thread in range(256))
        size = len(self.told(f"pmtrace 1\n{stores}{claims}", "--json", "--limit", "all"))
        self.expect("the JSON of 256 failures and 500 lost lines", size < 2_500_000, f"{size} bytes, wanted less than 2500000")

    def test_words_told(self):
        """A file whose name begins with a dash; and no loss where the status is 0, as of a trace that was cut."""
        folder = self.new_folder()
        (folder / "-t").write_text("pmtrace 1\nstore 0 0x1000 01\n")
        told = run([self.program, "explain", "--", "-t"], cwd=folder)
        self.expect("lost", told.status == 1 and told.out.startswith("LOST: "), told)
        (folder / "-t.cut").write_text("1 it was cut\n")
        for words in ([], ["--only", "never_persisted"]):
            told = run([self.program, "explain", *words, "--", "-t"], cwd=folder)
            self.expect("it was cut", told.status == 0 and "\nCHECK: " in told.out and "LOST" not in told.out, told)


add_tests(Explain, Explain.check_text, {f"text_of_{path.stem}": path for path in sorted(TEXTS.glob("*.text"))})
