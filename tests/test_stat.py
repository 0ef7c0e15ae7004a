"""Compares the figures of `stat` with a count of the trace's text, and what does nothing with the states of machine.py; and tries words that
are refused.
"""
import random
import re
from collections import Counter

import machine
from checks import Checks
from faulty import run_whole, short
from machine import FENCES, FLUSHES
from traces import all_traces

TRACES = 100
KINDS = ("all", "store", "bytes", "clwb", "clflushopt", "clflush", "sfence", "mfence", "isPersist", "isOrderedBefore")
ENDS = (0, 1, 2, 4, 8, 16)


def figures(program, *words):
    """The numbers of the first lines, and the rows of each table, by the first word of its head."""
    head, *tables = run_whole(program, "stat", *words).out.decode().split("\n\n")
    return list(map(int, re.findall(r"\d+", head))), {table.split(":")[0].split()[0]: table.splitlines()[2:] for table in tables}


def head_of(events, lines, size, idle):
    """The numbers of the first lines of these events, of whose flushes and fences so many do nothing."""
    sums = [sum(event[0] in kinds for event in events) for kinds in ((*FLUSHES, "clflush"), FENCES)]
    shares = [number for part, whole in zip(idle, sums) for number in (part, whole, share(part, whole))]
    return [len(events), len({event[1] for event in events}), lines, size, counts_of(events)["bytes"], *shares]


def share(part, whole):
    return 100 * part // whole if whole else 0


def rows_of(events):
    """The rows of the events of each kind, of all threads and of each."""
    threads = sorted({int(event[1]) for event in events})
    parts = [("all", events), *((f"thread {one}", [event for event in events if int(event[1]) == one]) for one in threads if len(threads) > 1)]
    return [[*(str(counts_of(own)[kind]) for kind in KINDS), *name.split()] for name, own in parts]


def events_of(text):
    """The events of a text, each by its fields."""
    return [line.split() for line in text.splitlines()[1:]]


def counts_of(events):
    """How many events of each kind there are, and the bytes that they store."""
    kinds = Counter(event[0] for event in events)
    stored = sum(len(event[3]) // 2 for event in events if event[0] == "store")
    return {**{kind: kinds[kind] for kind in KINDS}, "all": len(events), "bytes": stored}


def sizes_of(events):
    """Of each fence the flushes of its thread that stand between it and that thread's fence before."""
    sizes = []
    for at, event in enumerate(events):
        if event[0] in FENCES:
            own = [other[0] for other in events[:at] if other[1] == event[1]]
            last = max((place for place, word in enumerate(own) if word in FENCES), default=-1)
            sizes.append(sum(word in FLUSHES for word in own[last + 1 :]))
    return sizes


def fences_of(events):
    """The rows of how full the fences are."""
    sizes = sizes_of(events)
    if not sizes:
        return None
    bars = [sum((low < size or at == 0) and size <= high for size in sizes) for at, (low, high) in enumerate(zip((-1, *ENDS), ENDS))]
    tenths = 10 * sum(sizes) // len(sizes)
    unfenced = sum(event[0] in FLUSHES for event in events) - sum(sizes)
    last = f"  on average {tenths // 10}.{tenths % 10}, at most {max(sizes)}; flushes that no fence of their thread follows: {unfenced}"
    return ["".join(f"{bar:9}" for bar in [*bars, sum(size > ENDS[-1] for size in sizes)]), last]


def frame_of(label):
    return label.split(" < ")[0]


def places_of(events, kept, labels):
    """What each place pays: (flushes, those that do nothing, fences, those that do nothing)."""
    found = {}
    for number, event in enumerate(events, 1):
        at = 0 if event[0] in (*FLUSHES, "clflush") else 2 if event[0] in FENCES else None
        if at is not None:
            place = frame_of(labels[number]) if number in labels else f"thread {event[1]}"
            counts = found.setdefault(place, [0, 0, 0, 0])
            counts[at] += 1
            counts[at + 1] += number not in kept
    return {place: tuple(counts) for place, counts in found.items()}


def costs_in(rows):
    """What each row of a place says that it pays, and its name behind that."""
    for row in rows:
        *paid, share_paid, name = row.split(maxsplit=5)
        flushes, idle_flushes, fences, idle_fences = map(int, paid)
        right = int(share_paid) == share(idle_flushes + idle_fences, flushes + fences)
        yield name if right else f"wrong share: {row}", (flushes, idle_flushes, fences, idle_fences)


def is_in_order(costs):
    keys = [(-(cost[1] + cost[3]), -(cost[0] + cost[2])) for cost in costs]
    return keys == sorted(keys)


def written_labels(labels):
    return "".join(f"{number} {text}\n" for number, text in sorted(labels.items()))


LABELS = ("log.c:75 append", "log.c:75 append < main", "tree.c:141 split < insert", "thread 1", "* \u00fc", "#1 2 3 4")


def random_figures(program, folder, seed):
    """Complaints: the figures of a random trace with random labels are not those of its text and of its states."""
    choose = random.Random(seed)
    header, trace = machine.random_trace(choose)
    events = [machine.spelled(event).split() for event in trace.events]
    labels = {number: choose.choice(LABELS) for number in trace.numbers if choose.random() < 0.6}
    file, named = folder / f"{seed}.trace", folder / f"{seed}.labels"
    file.write_bytes(machine.text_of([header, *map(" ".join, events)]))
    named.write_text(written_labels(labels))
    head, tables = figures(program, "--labels", named, file)
    kept = {number for number in trace.numbers if machine.is_kept(trace, number)}
    wanted = places_of(events, kept, labels)
    costs = list(costs_in(tables.get("places", [])))
    idle = tuple(map(sum, zip((0, 0, 0, 0), *wanted.values())))[1::2]
    size = int(header.split()[2]) if header.startswith("pmtrace 2") else 64
    complaints = []
    for name, came, right in (
        ("head", head, head_of(events, len(trace.lines(len(events))), size, idle)),
        ("fences", tables.get("fences"), fences_of(events)),
        ("events", [row.split() for row in tables["events"]], rows_of(events)),
        ("places", dict(costs), wanted),
        ("order", is_in_order([cost for _, cost in costs]), True),
    ):
        if came != right:
            complaints.append(f"{seed} {name}: {came}, wanted {right}")
    return complaints


TRACE = """pmtrace 1
store 0 0x1000 0102
clwb 0 0x1000
clwb 0 0x1000
sfence 0
sfence 1
clwb 1 0x1000
"""
NAMED = "2 log.c:75 append < main\n3 log.c:75 append < other\n4 log.c:80 commit\n5 log.c:80 commit\n"
# Words that are refused, and what is told.
WORDS = {
    ("--json",): "'--json'",
    ("a", "b"): "'b'",
}


class Stats(Checks):
    """Runs of the program; a check is of a trace or of words."""

    def small(self):
        folder = self.new_folder()
        for name, text in (("small.trace", TRACE), ("small.labels", NAMED)):
            (folder / name).write_text(text)
        return folder, ["--labels", folder / "small.labels", folder / "small.trace"]

    def test_random_traces(self):
        folder = self.new_folder()
        calls = [(str(seed), lambda seed=seed: random_figures(self.program, folder, seed)) for seed in range(TRACES)]
        self.expect_of_all(calls)

    def test_examples(self):
        for file in all_traces():
            events = events_of(file.read_text())
            head, tables = figures(self.program, file)
            left = events_of(run_whole(self.program, "trim", file).out.decode())
            idle = [sum(event[0] in kinds for event in events) - sum(event[0] in kinds for event in left) for kinds in ((*FLUSHES, "clflush"), FENCES)]
            self.expect_equal(f"{file.stem}: head", head, head_of(events, *head[2:4], idle))
            self.expect_equal(f"{file.stem}: fences", tables.get("fences"), fences_of(events))
            self.expect_equal(f"{file.stem}: events", [row.split() for row in tables["events"]], rows_of(events))

    def test_all_places_and_threads(self):
        file = self.new_folder() / "many.trace"
        file.write_text("\n".join(["pmtrace 1", *(f"clwb {thread} 0x1000" for thread in range(256))]) + "\n")
        file.with_suffix(".trace.labels").write_text("".join(f"{number} {'long.c:' + str(number) + ' x' * 90}\n" for number in range(1, 257)))
        _, tables = figures(self.program, file)
        self.expect_equal("rows", {name: len(rows) for name, rows in tables.items()}, {"places": 256, "events": 257})
        self.expect("a name is told whole", tables["places"][0].endswith(" x" * 90), tables["places"][0])

    def test_text_tells_the_figures(self):
        folder, words = self.small()
        text = run_whole(self.program, "stat", *words).out.decode()
        self.expect("head", text.startswith("events 6, threads 2, cache lines 1 of 64 bytes, bytes stored 2\n"), text)
        rows = [row.split() for row in text.splitlines()]
        for row in ("flushes that do nothing: 2 of 3 (66%)", "fences that do nothing: 1 of 2 (50%)", "2 1 0 0 50 log.c:75 append", "1 1 0 0 100 thread 1",
                    "0 0 2 1 50 log.c:80 commit", "1 0 1 0 0 0 0", "on average 1.0, at most 2; flushes that no fence of their thread follows: 1",
                    "6 1 2 3 0 0 2 0 0 0 all", "4 1 2 2 0 0 1 0 0 0 thread 0", "2 0 0 1 0 0 1 0 0 0 thread 1"):
            self.expect(row, row.split() in rows, text)

    def test_standard_input(self):
        folder, words = self.small()
        named = run_whole(self.program, "stat", folder / "small.trace")
        for given in (["stat"], ["stat", "-"]):
            self.expect_equal(str(given), run_whole(self.program, *given, text=TRACE.encode()), named)

    def test_cut(self):
        folder, words = self.small()
        for text, told in (("6 a trace has at most 6 events\n", " was cut after event 6: a trace has at most 6 events\n"), ("", " was cut\n")):
            (folder / "small.trace.cut").write_text(text)
            first = run_whole(self.program, "stat", *words).out.decode()
            self.expect(f"{text!r}: text", first.startswith(f"This trace{told}"), first)
        (folder / "small.trace.cut").write_text("x\n")
        answer = run_whole(self.program, "stat", *words)
        self.expect("a bad one is refused", answer.status == 3 and f"{folder}/small.trace.cut:1: ".encode() in answer.faults, short(answer))

    def test_words_are_refused(self):
        for words, told in WORDS.items():
            answer = run_whole(self.program, "stat", *words)
            self.expect(" ".join(words), answer.status == 2 and told.encode() in answer.faults, short(answer))
