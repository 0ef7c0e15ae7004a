"""What `explain` hints at: the JSON of small random traces against hinted.py, of records that are flushed a line short, or not, of a function whose callers
save what it stores in ways of their own, and of marks; and hints by hand."""
import json
import random
import subprocess

from acts import read_acts
from called import WAYS, round_of, rounds
from checks import Checks
from explained import Explained, judged
from machine import Trace, spelled, text_of
from program import find

TRACES = 300
CALLS = 150
MARKS = 200
HEADER = "pmtrace 2 64"
# A record of 16 bytes from the last word of one line on, of which one line is flushed.
SHORT = ("store 0 0x1038 01", "store 0 0x1040 02", "clwb 0 0x1038", "sfence 0")
LABELS = ("log.c:30 copy < append log.c:12", "log.c:30 copy < append log.c:12", "log.c:40 flush < append log.c:13", "log.c:41 fence < append log.c:14")


def record(choose, size, thread, start, lines):
    """The events of one record, with their labels: a store to each of its lines, of which the first is `start`, flushes of all of them or
    of one less, and a fence; at times from another place, with a store elsewhere in the middle, backwards, or without the fence."""
    place = f"log.c:{choose.choice((10, 10, 10, 11))} copy"
    places = [start, *((start // size + line) * size for line in range(1, lines))]
    stores = [(("store", thread, at, b"\1"), place) for at in places]
    if lines > 1 and choose.random() < 0.3:
        # the last field comes from a place of its own, mostly right behind the others
        before = (("store", thread, places[-1] - 8, bytes(choose.choice((7, 8, 8)))), place)
        stores[-2:] = [before, (("store", thread, places[-1], b"\1"), "log.c:15 seal")]
    if choose.random() < 0.2:
        stores.insert(choose.randrange(len(stores) + 1), (("store", choose.randrange(2), 0x4000, b"\1"), choose.choice((place, "stat.c:5 count"))))
    if choose.random() < 0.1:
        stores.reverse()
    flushed = places[: max(1, lines - choose.choice((0, 1, 1, 1, 2)))]
    flushes = [((choose.choice(("clwb", "clflushopt")), thread, at), "log.c:20 flush") for at in flushed]
    fence = [(("sfence", thread), "log.c:21 flush")]
    return stores + flushes + fence * choose.choice((0, 1, 1, 1, 1, 2))


def random_records(choose):
    """The header, a trace of a few records one after the other by two threads, and the labels of its events."""
    size = choose.choice((32, 64))
    events, at = [], [0x1000 + size - 8, 0x2000]
    for _ in range(choose.choice((1, 2, 2, 3))):
        thread, lines = choose.choice((0, 0, 1)), choose.choice((1, 2, 2, 3))
        events += record(choose, size, thread, at[thread], lines)
        at[thread] = (at[thread] // size + lines - 1) * size + choose.choice((8, 8, size))
    labels = {number: label for number, (_, label) in enumerate(events, 1)} if choose.random() < 0.8 else {}
    return f"pmtrace 2 {size}", Trace(size, [event for event, _ in events]), labels


def random_calls(choose):
    """The header, a trace of rounds by two threads, and labels. Most callers have one way."""
    size, events = 64, []
    ways = {caller: choose.choice(("right", "right", "unfenced", "unfenced", "late", "late", "claimed", "vouched", "beside")) for caller in ("a.c", "b.c", "c.c")}
    for index in range(choose.randrange(3, 11)):
        caller = choose.choice(tuple(ways))
        way = choose.choice(tuple(WAYS)) if choose.random() < 0.05 else ways[caller]
        label = choose.choice(("", f" < save {caller}:6")) if choose.random() < 0.1 else f" < save {caller}:6 < main m.c:2"
        events += round_of(way, choose.choice((0, 0, 0, 1)), 0x10000 + 128 * choose.choice((index, index, index, 0)), label, caller)
    labels = {number: label for number, (_, label) in enumerate(events, 1) if choose.random() < 0.98}
    return f"pmtrace 2 {size}", Trace(size, [read_event(event) for event, _ in events]), labels


def random_marks(choose):
    """The header, a trace of a few stores, some of which are marks, and labels of two sites."""
    acts = ("s{0}@m", "s{0}@m", "s{0}.8@m", "s{0}@n", "f{0}", "f{0}", "|", "o{0}>{1}", "o{0}>{1}.8", "p{0}")
    words = [f"t{choose.choice((0, 0, 0, 1))} {choose.choice(acts).format(*choose.sample(range(3), 2))}" for _ in range(choose.randrange(6, 18))]
    events, labels = read_acts(" ".join(words))
    return HEADER, Trace(64, events), labels


def read_event(text):
    """The event of a line, in the form of machine.py."""
    word, thread, *rest = text.split()
    fields = [int(rest[0], 16)] if rest else []
    more = [bytes.fromhex(rest[1])] if word == "store" else [int(rest[1])] if word == "isPersist" else []
    return (word, int(thread), *fields, *more)


def asked_words(choose, trace):
    """Which findings are asked for, and the words for that."""
    if choose.random() < 0.5:
        return {}, []
    asked = {"only": "hint"} if choose.random() < 0.5 else {"thread": choose.randrange(2)}
    if choose.random() < 0.3:
        asked["from"] = choose.randrange(1, len(trace.events) + 1)
    return asked, [word for name, value in asked.items() for word in (f"--{name}", str(value))]


def hints_of(text):
    return [entry for entry in map(json.loads, text.splitlines()) if entry["kind"] == "hint"]


def compare(program, folder, choose, found, random_trace=random_records):
    """What is wrong with the answer to one random trace, if anything, and that trace; its hints are added to those found."""
    head, trace, labels = random_trace(choose)
    asked, words = asked_words(choose, trace)
    file, names = folder / "trace", folder / "labels"
    file.write_bytes(text_of([head, *map(spelled, trace.events)]))
    names.write_bytes(text_of(f"{number} {label}" for number, label in labels.items()))
    explained = Explained(trace, [], labels, asked, [])
    words += ["--labels", names] * bool(labels)
    run = lambda *more: subprocess.run([program, "explain", *words, *more, file], capture_output=True, timeout=120).stdout
    told = run("--json", "--limit", "100")
    found += [(entry["hint"], bool(labels)) for entry in hints_of(told)] + ["path"] * told.count(b'"kind":"path"') + ["on a path"] * told.count(b'"path":"')
    return judged(explained, told, 100), f"{' '.join(map(str, words))}\n{file.read_text()}"


class Hints(Checks):
    def told(self, events, labels=(), *words):
        """The lines of a trace."""
        folder = self.new_folder()
        (folder / "trace").write_bytes(text_of([HEADER, *events]))
        (folder / "labels").write_bytes(text_of(f"{number} {label}" for number, label in enumerate(labels, 1)))
        words = [*words, *(["--labels", folder / "labels"] if labels else []), folder / "trace"]
        return subprocess.run([self.program, "explain", "--json", *words], capture_output=True, text=True, timeout=60).stdout

    def expect_hints(self, kind, what, events, wanted, labels=(), *words):
        """What is told as this kind: of each place the first event and how many they are."""
        told = hints_of(self.told(events, labels, *words))
        found = [(entry["label"] or entry["thread"], entry["first"]["event"], entry["count"]) for entry in told if entry["hint"] == kind]
        self.expect_equal(what, found, wanted)

    def expect_short(self, what, events, wanted, labels=(), *words):
        self.expect_hints("one_line_short", what, events, wanted, labels, *words)

    def expect_open(self, what, events, wanted):
        self.expect_hints("open_at_store", what, events, wanted, [f"x.c:{number} f" for number in range(1, len(events) + 1)])

    def test_random_records(self):
        choose, folder, found = random.Random(23), self.new_folder(), []
        for number in range(TRACES):
            wrong, trace = compare(find(), folder, choose, found)
            self.expect(f"records {number}", not wrong, f"{wrong}\nof {trace}")
        self.expect("many are one line short, with and without labels", all(found.count(("one_line_short", is_labelled)) > 9 for is_labelled in (False, True)), found)

    def test_random_calls(self):
        choose, folder, found = random.Random(51), self.new_folder(), []
        for number in range(CALLS):
            wrong, trace = compare(find(), folder, choose, found, random_calls)
            self.expect(f"calls {number}", not wrong, f"{wrong}\nof {trace}")
        self.expect("many are told of one path", all(found.count(what) > 9 for what in ("path", "on a path")), found)

    def test_random_marks(self):
        choose, folder, found = random.Random(67), self.new_folder(), []
        for number in range(MARKS):
            wrong, trace = compare(find(), folder, choose, found, random_marks)
            self.expect(f"marks {number}", not wrong, f"{wrong}\nof {trace}")
        self.expect("many are stored after a mark", found.count(("stored_after_mark", True)) > 9, found)

    def expect_paths(self, what, ways, wanted, *words, kind="open_at_store"):
        """Of these rounds what is told of paths alone: of each the path, the first event and how many they are."""
        events, labels = zip(*rounds(ways))
        entries = [json.loads(line) for line in self.told(events, labels, *words).splitlines()]
        found = [(entry["path"], entry["first"]["event"], entry["count"]) for entry in entries if entry["kind"] == "hint" and entry["hint"] == kind and entry["path"]]
        found += [(entry["label"], entry["first_left"]["event"], entry["left"]) for entry in entries if entry["kind"] == "path"]
        self.expect_equal(what, found, wanted)

    def test_paths(self):
        """A flush or a store in a function that callers share."""
        right, bad, late = [("right", "a.c")] * 2, [("unfenced", "b.c")] * 3, [("late", "b.c")] * 3
        self.expect_paths("a caller that does not fence", right + bad, [("log.c:31 fill < save b.c:6 < main m.c:2", 14, 3)])
        self.expect_paths("two rounds alone", right + bad[:2], [])
        self.expect_paths("one round of it fences", right + bad + [("right", "b.c")], [])
        self.expect_paths("all callers do so: it is told of the place", bad + [("unfenced", "a.c")], [])
        self.expect_paths("one whose records are claimed", right + [("vouched", "b.c")] * 3, [])
        self.expect_paths("one who claims its own field in their line", right + [("beside", "b.c")] * 3, [("log.c:31 fill < save b.c:6 < main m.c:2", 14, 3)])
        self.expect_paths("a claim of another caller", [("claimed", "a.c")] + bad, [("log.c:31 fill < save b.c:6 < main m.c:2", 9, 3)])
        self.expect_paths("one that saves them a fence late", right + late, [("log.c:30 fill < save b.c:6 < main m.c:2", 13, 3)])
        self.expect_paths("two rounds alone", right + late[:2], [])
        self.expect_paths("all callers do so: it is told of the place", late + [("late", "a.c")], [])

    def test_one_line_short(self):
        self.expect_short("a lost rest", SHORT, [("log.c:40 flush", 3, 1)], LABELS)
        more = ("store 0 0x1048 03", "store 0 0x1050 03", "clwb 0 0x1048", "sfence 0")
        self.expect_short("a rest that the next record's flush saves", SHORT + more, [], LABELS)
        mark = ("store 0 0x2000 01", "clwb 0 0x2000", "sfence 0")
        self.expect_short("one that waits for two fences", SHORT + mark + more, [(0, 3, 1)])
        self.expect_short("of a run of two lines its last", ("store 0 0x1000 01", *SHORT[:2], "clwb 0 0x1000", *SHORT[3:]), [(0, 4, 1)])
        lines = [f"store 0 {at:#x} 01" for at in range(0x1000, 0x10C8, 8)]
        crc = ("store 0 0x1038 0102030405060708", *SHORT[1:])
        self.expect_short("a last field from a place of its own", crc, [("log.c:40 flush", 3, 1)], ("log.c:29 head", *LABELS[1:]))
        self.expect_short("a run of three lines", (*lines, *(f"clwb 0 {at:#x}" for at in (0x1000, 0x1040, 0x1080)), "sfence 0"), [(0, 28, 1)])
        self.expect_short("two lines short", (*lines, *(f"clwb 0 {at:#x}" for at in (0x1000, 0x1040)), "sfence 0"), [])

    def test_not_short(self):
        """What is none, each by one change."""
        self.expect_short("the line is flushed", (*SHORT[:3], "clwb 0 0x1040", SHORT[3]), [])
        self.expect_short("no fence comes", SHORT[:3], [])
        self.expect_short("a fence before the flush", (*SHORT[:2], "sfence 0", *SHORT[2:]), [])
        self.expect_short("from another place, not right behind", SHORT, [], ("log.c:29 head", *LABELS[1:]))
        self.expect_short("a store between", (SHORT[0], "store 0 0x3000 01", *SHORT[1:]), [])
        self.expect_short("one of another thread between", (SHORT[0], "store 1 0x3000 01", *SHORT[1:]), [(0, 4, 1)])
        self.expect_short("by two threads", ("store 1 0x1038 01", *SHORT[1:]), [])
        self.expect_short("the next line but one", (SHORT[0], "store 0 0x1080 02", *SHORT[2:]), [])
        self.expect_short("the line before", ("store 0 0x1040 01", "store 0 0x1038 02", "clwb 0 0x1040", "sfence 0"), [])
        self.expect_short("flushed before it is stored", (SHORT[0], SHORT[2], SHORT[1], SHORT[3]), [])
        self.expect_short("a clflush", (*SHORT[:2], "clflush 0 0x1038", *SHORT[3:]), [])

    def test_claims(self):
        """A flush that is open at a store, and assertions on what it flushes, or on other bytes of its line."""
        batch, told = ("store 0 0x1000 01", "clwb 0 0x1000", "store 0 0x2000 02", "clwb 0 0x2000", "sfence 0"), [("x.c:2 f", 2, 1)]
        self.expect_open("no assertion", batch, told)
        self.expect_open("one that passes", (*batch, "isPersist 0 0x1000 1"), [])
        self.expect_open("one that fails", (*batch[:4], "isPersist 0 0x1000 1", batch[4]), told)
        self.expect_open("one of the other line", (*batch, "isPersist 0 0x2000 1"), told)
        self.expect_open("one on bytes that end before the line", (*batch, "isPersist 0 0xfc0 64"), told)
        self.expect_open("one that reaches into it", (*batch, "isPersist 0 0xfc0 65"), [])
        self.expect_open("one that begins behind it", (*batch, "isPersist 0 0x1040 64"), told)
        mark = ("store 0 0x3000 01", "clwb 0 0x3000", "sfence 0")
        self.expect_open("an order that holds", (*batch, *mark, "isOrderedBefore 0 0x1000 1 0x3000 1"), [])
        self.expect_open("the mark of one that holds", (*batch, "isOrderedBefore 0 0x4000 1 0x1000 1"), told)
        self.expect_open("an order that does not hold", (*batch, "isOrderedBefore 0 0x2000 1 0x1000 1"), told)
        self.expect_open("one on another field of the line", (*batch, "isPersist 0 0x1008 8"), told)
        for what, acts, wanted in (
            ("another function's, on its own field of the line", "s0 f0@f s1 f1 | s0.8@g f0@g | p0.8@g", [("f", 2, 1)]),
            ("on the first one's field too", "s0 f0@f s1 f1 | s0.8@g f0@g | p0x9@g", []),
            ("on what an earlier flush saves", "s0 f0@g | s0.8 f0@f s1 f1 | p0", [("f", 5, 1)]),
            ("or an earlier clflush", "s0 F0 s0.8 f0@f s1 f1 | p0", [("f", 4, 1)]),
            ("an earlier flush that is not kept", "s0 f0@g f0@f s1 f1 | p0", []),
            ("on what is stored after the flush", "s0 f0@f s0.8 s1 f1 | f0 | p0.8", [("f", 2, 1)]),
            ("on what is written over", "s0 f0@f s1 f1 | s0 f0@g | p0", [("f", 2, 1)]),
            ("on what another thread stored", "t1 s0 t0 f0@f s1 f1 | p0", []),
            ("on what one of two flushes of the place saves", "s0 f0@f s1 f1 | s2 f2@f s3 f3 | p0", []),
        ):
            events, labels = read_acts(acts)
            self.expect_hints("open_at_store", what, map(spelled, events), wanted, list(labels.values()))

    def test_stored_after_mark(self):
        """What stands after a mark, and what is none, each by one change."""
        for what, acts, wanted in (
            ("a store after a mark", "s0 f0 | s1@m s2@m f1 f2 | o0>1", [("m", 5, 1)]),
            ("in the mark's line", "s0 f0 | s1@m s1.8@m f1 | o0>1", [("m", 5, 1)]),
            ("two of them", "s0 f0 | s1@m s2@m s3@m f1 | o0>1", [("m", 5, 2)]),
            ("two rounds", "s0 f0 | s1@m s2@m f1 f2 | o0>1 s1@m s2@m f1 f2 | o0>1", [("m", 5, 2)]),
            ("before the mark", "s0 f0 | s2@m s1@m f1 f2 | o0>1", []),
            ("a fence between", "s0 f0 | s1@m | s2@m f1 f2 | o0>1", []),
            ("from another place", "s0 f0 | s1@m s2@n f1 f2 | o0>1", []),
            ("to the same address", "s0 f0 | s1@m s1@m f1 | o0>1", []),
            ("of another thread", "s0 f0 | s1@m t1 s2@m f2 | t0 f1 | o0>1", []),
            ("a mark too", "s0 f0 | s1@m s2@m f1 f2 | o0>1 o0>2", []),
            ("in a first range", "s0 f0 | s1@m s2@m f1 f2 | o0>1 o2>5", []),
            ("an order that fails", "s0 s1@m s2@m f0 f1 f2 | o0>1", []),
            ("isPersist", "s0 f0 | s1@m s2@m f1 f2 | p1", []),
            ("written over by the claim", "s0 f0 | s1@m s2@m f1 f2 | s1@k f1 | o0>1", []),
        ):
            events, labels = read_acts(acts)
            self.expect_hints("stored_after_mark", what, map(spelled, events), wanted, list(labels.values()))
