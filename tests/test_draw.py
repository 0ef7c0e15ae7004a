"""Compares the pictures that `draw` makes of traces with a literal enumeration of the machine of docs/MODEL.md."""
import random
import re
import subprocess

from checks import Checks, add_tests
from drawn import Picture, of_class, title_of
from drawn_mends import after_is_pale, is_mended, kept_is_told, mends_are_shown, told_mend
from drawn_rules import (
    TOLD,
    around,
    bars_are_told,
    crash_is_apart,
    crashes_are_right,
    events_are_right,
    extent,
    flushes_are_right,
    is_on_page,
    lanes_of,
    legend_is_right,
    losses_are_marked,
    lost_by,
    marked_losses,
    range_is_shown,
    rows_are_named,
    stores_are_right,
    story_is_right,
    waits_are_apart,
)
from machine import random_trace, spelled, text_of, verdict
from page_machine import read_trace
from program import TOP
from slices import Plain, slice_of
from traces import all_traces

TRACES = 150


# Traces of which explain tells no error, and the headline of the picture of what it tells first; the answers are written by hand.
SAVED = ["clwb 0 0x1000", "sfence 0"]
FIRST = [
    (["isPersist 0 0x1000 1", "store 0 0x1000 01", *SAVED, *["isPersist 1 0x1000 1"] * 2], "Events 1 to 6"),
    (["store 0 0x1040 01", "store 0 0x1000 01", *SAVED, "store 0 0x1000 02", *SAVED, "clwb 0 0x1040", "sfence 0"], "Store 1 is saved late"),
    ([*["store 0 0x1000 01", *SAVED] * 20, "sfence 1", *["store 0 0x1000 01", *SAVED] * 20], "Events 50 to 73"),
    (["store 0 0x1000 01", "store 0 0x1000 01", "store 0 0x1040 01", "store 0 0x1040 02", *SAVED, "clwb 0 0x1040", "sfence 0"], "Events 1 to 8"),
    (["store 0 0x1000 01", *SAVED], "Events 1 to 3"),
]


def told_words(picture):
    return " ".join(text.text for text in picture.of_class("text", "told"))


def marks_are_apart(picture):
    """The names of the flushes' threads, and the labels of the columns, do not meet."""
    texts = [text for row in picture.rows for text in of_class(row, "text", "small") if text.text.startswith("T")]
    texts += [text for event in picture.events for text in of_class(event, "text", "label")]
    places = sorted((base, left, right) for left, right, base in map(extent, texts))
    return not any(base == other and left < right + 1 for (base, _, right), (other, left, _) in zip(places, places[1:]))


class Drawing(Checks):
    """Pictures of the trace in a file."""

    def setUp(self):
        self.file = self.new_folder() / "trace"

    def run_draw(self, *words):
        return subprocess.run([self.program, "draw", *map(str, words)], capture_output=True, timeout=120)

    def judge(self, name, right):
        self.expect(name, right, f"not so of\n{self.file.read_text()[:2000] if self.file.exists() else ''}")

    def drawn(self, *words):
        """The picture of the file's trace; the same bytes come twice."""
        done, again = self.run_draw(*words, self.file), self.run_draw(*words, self.file)
        self.judge(f"status of {words}: {done.stderr}", done.returncode == 0 and not done.stderr)
        self.judge(f"the same bytes: {words}", done.stdout == again.stdout)
        return Picture(done.stdout)

    def refused(self, part, *words):
        """Words that are not of the file's trace: they are named, and nothing is drawn."""
        done = self.run_draw(*words, self.file)
        self.judge(f"refused {words}: {done.stderr}, wanted {part}", done.returncode == 2 and part in done.stderr.decode() and not done.stdout)

    def judge_page(self, words, picture):
        """What holds of each picture's page."""
        self.judge(f"crash apart {words}", crash_is_apart(picture))
        self.judge(f"names {words}", rows_are_named(picture))
        self.judge(f"lines of flushes apart {words}", waits_are_apart(picture))
        self.judge(f"legend {words}", legend_is_right(picture))
        self.judge(f"page {words}", is_on_page(picture))
        self.judge(f"after the crash {words}", after_is_pale(picture))

    def judge_mend(self, words, picture, trace):
        """What is missing has its mark, and is missing no more once that is put in."""
        mend = told_mend(self.program, self.file, picture)
        self.judge(f"what is missing {words}: {mend}", mends_are_shown(picture, trace, mend))
        self.judge(f"what is mended {words}: {mend}", is_mended(picture, trace, mend))
        self.judge(f"what is kept {words}", kept_is_told(picture, trace))


class Random(Drawing):
    """Small random traces, each drawn as a story and around an event."""

    def test_random_traces(self):
        choose = random.Random(9)
        for _ in range(TRACES):
            self.judge_random(choose)

    def judge_random(self, choose):
        head, trace = random_trace(choose)
        self.file.write_bytes(text_of([head, *map(spelled, trace.events)]))
        story = self.drawn()
        self.judge("the story", story_is_right(story, trace))
        number = choose.choice(trace.numbers)
        for words, picture, numbers in (("the story", story, story.numbers), (f"around {number}", self.drawn("--around", number), around(trace, number))):
            self.judge(f"events {words}", events_are_right(picture, trace, numbers))
            self.judge(f"flushes {words}", flushes_are_right(picture, trace))
            self.judge(f"stores {words}", stores_are_right(picture, trace))
            self.judge(f"titles of bars {words}", bars_are_told(picture, trace))
            self.judge(f"crashes {words}", crashes_are_right(picture, trace))
            self.judge(f"losses {words}", losses_are_marked(picture, trace))
            self.judge(f"ranges {words}", range_is_shown(picture, trace))
            self.judge(f"line size {words}", f"cache lines of {trace.size} bytes" in picture.words())
            self.judge_page(words, picture)
            self.judge_mend(words, picture, trace)
        self.judge_failure(trace, choose)

    def judge_failure(self, trace, choose):
        """An event by its number: the failure that it is, or a word that it is none."""
        number = choose.choice(trace.numbers)
        if not trace.event(number)[0].startswith("is"):
            self.refused("is no assertion", "--failure", number)
        elif verdict(trace, number).endswith("pass"):
            self.refused("passes", "--failure", number)
        else:
            picture = self.drawn("--failure", number)
            self.judge(f"failure {number}", title_of(picture.root).endswith(f" {number} fails.") and picture.numbers == slice_of(trace, number))
            self.judge(f"marks of {number}", losses_are_marked(picture, trace) and marked_losses(picture) == sorted(lost_by(trace, picture.crashes[0])))
            plain = Plain(trace.size, trace.events)
            alike = all(plain.is_safe(store, place) == trace.is_safe(store, place) for store in marked_losses(picture) for place in trace.numbers if store <= place)
            self.judge(f"safe places of {number}", alike)
            self.judge_mend(number, picture, trace)


class Marks(Drawing):
    """Each failed assertion of the worked traces: its picture has the events of its slice, and marks the lost stores of its crash."""

    def check_marks_of(self, file):
        self.file = file
        trace = Plain(*read_trace(file.read_bytes()))
        checked = subprocess.run([self.program, "check", str(file)], capture_output=True, text=True, timeout=60).stdout.splitlines()
        failing = [int(line.split()[1]) for line in checked if line.endswith(" fail")]
        for number in failing:
            picture, wanted = self.drawn("--failure", number), slice_of(trace, number)
            self.judge(f"slice of {number}", picture.numbers == wanted or TOLD == len(picture.numbers) and set(picture.numbers) < set(wanted))
            left = f"Of the {len(wanted)} events that tell of it, {len(wanted) - TOLD} have no room: 'pmtrim slice --failure {number}' writes all."
            self.judge(f"what is left of {number}", (left in told_words(picture)) == (len(wanted) > TOLD))
            lost = lost_by(trace, picture.crashes[0])
            self.judge(f"marks of {number}", losses_are_marked(picture, trace) and marked_losses(picture) == sorted(lost & set(picture.numbers)))
            self.judge(f"stores of {number}", stores_are_right(picture, trace))
            self.judge_page(number, picture)
            self.judge_mend(number, picture, trace)
        picture = self.drawn()
        self.judge("the first picture", picture.numbers)
        self.judge_mend("of the first picture", picture, trace)


add_tests(Marks, Marks.check_marks_of, {f"marks_of_{file.stem}": file for file in all_traces() if len(file.read_bytes().splitlines()) > 1})


class Worked(Drawing):
    """Traces and words by hand."""

    def test_limits(self):
        """More events than have room: those around the one that is asked for, and words for the others."""
        stores = [f"store {n} {0x1000 + 64 * n:#x} 01" for n in range(256)]
        self.file.write_bytes(text_of(["pmtrace 1", *stores, *(f"sfence {n}" for n in range(256))]))
        for number, first in ((1, 1), (13, 2), (300, 289), (512, 489)):
            picture = self.drawn("--around", number)
            self.judge(f"around {number}", picture.numbers == list(range(first, first + TOLD)))
            self.judge(f"rows around {number}", picture.lines == [0x1000 + 64 * (n - 1) for n in picture.numbers if n <= 256])
            self.judge(f"what is left out around {number}", "Left out: 488 events, where the dots stand." in told_words(picture))
            self.judge("marks apart", marks_are_apart(picture))
            self.judge_page(f"around {number}", picture)
        self.refused("event 513 lies past the end", "--around", 513)
        self.refused("event 513 lies past the end", "--failure", 513)

    def test_threads(self):
        """Marks of threads with three digits stand apart, also where many events are left out."""
        stores = [f"store {n} {0x1000 + n % 4:#x} 01" for n in range(100, 112)]
        flushes = [f"clwb {n} 0x1000" for n in range(100, 112)]
        self.file.write_bytes(text_of(["pmtrace 1", *stores, *flushes, "isPersist 255 0x1000 1"]))
        picture = self.drawn("--around", 25)
        self.judge("three digits", marks_are_apart(picture))
        self.judge_page("three digits", picture)
        for thread in (0, 200):
            events = [event for n in range(30) for event in (f"store {thread} {0x1000 + 64 * n:#x} 01", "sfence 1")]
            self.file.write_bytes(text_of(["pmtrace 1", *events, f"isPersist {thread} 0x1000 1920"]))
            picture = self.drawn()
            self.judge(f"many gaps of {thread}", len(picture.of_class("g", "gap")) == TOLD - 1 and marks_are_apart(picture))
            self.judge_page(f"many gaps of {thread}", picture)

    def test_range(self):
        """A range of 40 lines whose last is never flushed, as by a wrong mask: of the 161 events of its slice the lost stores, the last others
        and words that say how to see all."""
        first, last = 0x10000, 0x10000 + 39 * 64
        stores = [f"store 0 {address + at:#x} 0102030405060708" for address in range(first, last + 64, 64) for at in (0, 8, 16)]
        flushes = [f"clwb 0 {address:#x}" for address in range(first, last, 64)]
        events = [*stores, *flushes, "sfence 0", f"isPersist 0 {first:#x} {40 * 64 - 40}"]
        self.file.write_bytes(text_of(["pmtrace 1", *events]))
        picture = self.drawn()
        self.judge("events of a range", picture.numbers == [118, 119, 120, *range(141, 162)])
        self.judge("what is left of a range", "Of the 161 events that tell of it, 137 have no room: 'pmtrim slice --failure 161' writes all." in told_words(picture))
        self.judge("lost stores of a range", marked_losses(picture) == [118, 119, 120] and picture.crashes[0].get("data-losses") == "3")
        texts = {text.text for text in picture.of_class("text", "asserted")}
        self.judge("bytes of a range", texts == {"claimed +0 to +63", "claimed +0 to +23"})
        self.judge_page("a range", picture)

    def test_many_losses(self):
        """A range of 32 stores that are never flushed: as many of them as have room, each marked, and words for the others."""
        stores = [f"store 0 {0x1000 + 8 * at:#x} 0102030405060708" for at in range(32)]
        self.file.write_bytes(text_of(["pmtrace 1", *stores, "isPersist 0 0x1000 256"]))
        picture = self.drawn()
        self.judge("many losses", picture.numbers == [*range(1, TOLD), 33] and marked_losses(picture) == [*range(1, TOLD)])
        self.judge("losses without room", "Of the 32 stores that it loses, 9 are not drawn." in told_words(picture))
        self.judge_page("many losses", picture)
        self.file.write_bytes(text_of(["pmtrace 1", *(f"store 0 {0x1000 + at:#x} 01" for at in range(40))]))
        picture = self.drawn()
        self.judge("stores of a line", picture.numbers == [*range(1, TOLD + 1)] == marked_losses(picture))
        self.judge("stores without room", "Of the 40 stores that it loses, 16 are not drawn." in told_words(picture))

    def test_crowd(self):
        """Many bars one above the other: each lost store has its own."""
        sizes = {"isPersist 0 0x1000 64": 8, "isOrderedBefore 0 0x1018 8 0x1000 8": 1}
        for claim, count in sizes.items():
            events = [event for n in range(20) for event in (f"store {n} {0x1000 + 8 * (n % 8):#x} 0102030405060708", f"clwb {n} 0x1000")]
            self.file.write_bytes(text_of(["pmtrace 1", *events, claim]))
            picture = self.drawn()
            crash, = picture.crashes
            told = marked_losses(picture)
            kept = {int(crash.get("data-kept"))} if crash.get("data-kept") else set()
            self.judge(f"lost stores of a crowd, {claim}", len(told) == count)
            self.judge(f"their bars, {claim}", all(lanes_of(picture, store, 0x1000) for store in kept.union(told)))
            self.judge_page(f"a crowd, {claim}", picture)

    def test_waits(self):
        """Three flushes of one thread that wait: a line from each to the next, and none on another."""
        stores = [f"store 0 {0x1000 + 64 * n:#x} 01" for n in range(3)]
        flushes = [f"clwb 0 {0x1000 + 64 * n:#x}" for n in range(3)]
        for fence in ([], ["sfence 0"]):
            self.file.write_bytes(text_of(["pmtrace 1", *stores, *flushes, *fence, "isPersist 0 0x1000 192"]))
            picture = self.drawn("--around", 4)
            kinds = [line.get("class") for line in of_class(picture.drawn, "line", "wait")]
            self.judge(f"lines of flushes {fence}", kinds == ["wait" if fence else "wait never"] * 3 and waits_are_apart(picture))

    def test_shared(self):
        """Stores that share their states share a bar, with a tick for each."""
        stores = [f"store 0 {0x1000 + n % 8:#x} 01" for n in range(20)]
        self.file.write_bytes(text_of(["pmtrace 1", *stores, "clwb 0 0x1000", "sfence 0", "isPersist 0 0x1000 8"]))
        picture = self.drawn("--around", 10)
        self.judge("one bar", [(bar.get("data-event"), bar.get("data-drawn")) for bar in picture.bars] == [("1", "20")])
        ticks = sorted(int(tick.get("data-store")) for tick in of_class(picture.drawn, "path", "stored"))
        self.judge("ticks", ticks == list(range(2, 21)))
        self.judge_page("one bar", picture)

    def test_first(self):
        """What is told first is drawn: of failed assertions the cause with most members, and where nothing is told what has no effect."""
        for events, headline in FIRST:
            self.file.write_bytes(text_of(["pmtrace 1", *events]))
            picture = self.drawn()
            self.judge(f"told first: {title_of(picture.root)}", title_of(picture.root) == headline)
            self.judge_page(headline, picture)
        several = ["store 0 0x1000 01", "isPersist 0 0x1000 1", "store 1 0x1000 01", "clwb 1 0x1000", "isPersist 0 0x1000 1", "isPersist 0 0x1000 1"]
        self.file.write_bytes(text_of(["pmtrace 1", *several]))
        self.judge("the cause with most members", title_of(self.drawn().root) == "isPersist 5 fails.")
        labels = self.file.with_name("labels")
        labels.write_text("2 a.c:1\n5 a.c:2\n6 a.c:3\n")
        self.judge("the causes by label", title_of(self.drawn("--labels", labels).root) == "isPersist 2 fails.")

    def test_labels(self):
        """Labels stand at their events, spelled so that the picture stays one; those with no room end in dots."""
        self.file.write_bytes(text_of(["pmtrace 1", "store 0 0x1000 01", "isPersist 0 0x1000 1"]))
        labels = self.file.with_name("labels")
        labels.write_text("1 a<b> & 'c' \"d\"\n2 list.c:57 insert\n")
        picture = self.drawn("--labels", labels)
        told = [title_of(event) for event in picture.events]
        self.judge("labels", told == ["event 1: store 0 0x1000 01 (a<b> & 'c' \"d\")", "event 2: isPersist 0 0x1000 1 (list.c:57 insert): fails"])
        for long, shown in (
            ("src/engine/recovery.c:57 insert", "ry.c:57 insert"),
            ("Ждать_записи_всех", "ть_записи_всех"),
            ("记录先写入内存然后", "先写入内存然后"),
            ("redo.c:118 redo_commit < list_add redo.c:215 < main redo.c:463", " redo_commit …"),
        ):
            labels.write_text(f"1 {long}\n2 {long}\n", encoding="utf-8")
            picture = self.drawn("--labels", labels)
            texts = [text.text for text in picture.of_class("text", "label")]
            self.judge(f"cut labels {texts}", texts == ["…" + shown] * 2 and marks_are_apart(picture))
        labels.write_text("1 redo.c:118 < main redo.c:463\n2 a.c:1 < b.c:2\n", encoding="utf-8")
        texts = [text.text for text in self.drawn("--labels", labels).of_class("text", "label")]
        self.judge(f"callers left out: {texts}", texts == ["redo.c:118 …", "a.c:1 < b.c:2"])
        labels.write_text("1 \u202eevil\ufffe\u0085\n2 fifteen letters\n", encoding="utf-8")
        picture = self.drawn("--labels", labels)
        self.judge("odd letters", [text.text for text in picture.of_class("text", "label")] == ["?evil??", "fifteen letters"])
        labels.write_text("2 late\n1 early\n")
        self.judge("labels that fall", self.run_draw("--labels", labels, self.file).returncode == 3)
        self.judge("no labels file", self.run_draw("--labels", labels.with_name("none"), self.file).returncode == 4)

    def test_words(self):
        """Statuses of wrong words and files."""
        self.file.write_bytes(b"pmtrace 1\n")
        for status, part, words in (
            (2, b"'0'", ["--around", "0"]),
            (2, b"'x'", ["--around", "x"]),
            (2, b"'01'", ["--around", "01"]),
            (2, b"--failure", ["--failure", "3", "--around", "1"]),
            (2, b"'0'", ["--failure", "0"]),
            (2, b"'--from'", ["--from", "1", "--to", "2"]),
            (2, b"'--line'", ["--line", "0x1000"]),
        ):
            done = self.run_draw(*words, self.file)
            self.judge(f"{words}: {done}", done.returncode == status and part in done.stderr and not done.stdout)
        self.judge("no events", self.drawn().numbers == [])
        out = self.file.with_name("picture.svg")
        done = self.run_draw("-o", out, self.file)
        self.judge(f"a picture in a file: {done}", (done.returncode, done.stdout) == (0, b"") and out.read_bytes() == self.run_draw(self.file).stdout)
        done = self.run_draw("--out", self.file, self.file)
        self.judge(f"over the trace: {done}", done.returncode == 2 and self.file.read_bytes() == b"pmtrace 1\n")
        self.refused("event 7 lies past the end", "--around", 7)
        self.judge("no file", self.run_draw(self.file.with_name("none")).returncode == 4)
        self.file.write_bytes(b"pmtrace 1\nfoo\n")
        done = self.run_draw(self.file)
        wanted = f"{self.file}:2: ".encode()
        self.judge(f"a refused trace: {done}", done.returncode == 3 and done.stderr.startswith(wanted) and b"\n    foo\n" in done.stderr)

    def test_documents(self):
        """The pictures of the documents are what the program draws."""
        for picture in sorted(TOP.joinpath("docs", "pictures").glob("*.svg")):
            done = self.run_draw(TOP / "examples" / f"{picture.stem}.trace")
            self.judge(f"docs/pictures/{picture.name}", done.stdout == picture.read_bytes())
        page = TOP.joinpath("docs", "DRAW.md").read_text()
        shown = re.findall(r"\]\(pictures/(\w+)\.svg\)", page)
        self.judge("pictures of docs/DRAW.md", sorted(shown) == sorted(path.stem for path in TOP.joinpath("docs", "pictures").glob("*.svg")))
