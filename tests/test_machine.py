"""Compares the program with a literal enumeration of the machine (oracles/machine.py), on small random traces, the same each time."""
import itertools
import random
import subprocess

from checks import Checks
from explained import Explained, judged
from machine import FENCES, FLUSHES, Trace, entries_at, is_faithful, is_kept, least, none_can_go, random_trace, spelled, text_of
from planted import JSON, in_json

# As many entries as `--limit all` stands for.
ALL = 1_000_000
TRACES = 400
GROUPED = 300
LONG = 12
PLACES = ("put.c:12 record", "put.c:14", "list.c:7 insert", "put.c:14 < main put.c:90", "put.c:14 < list.c:3")
# How often each fault is planted at least.
PLANTED = 3


def answers(head, trace):
    """What each command must write, with its status; the place of fronts is the middle."""
    kept = [number for number in trace.numbers if is_kept(trace, number)]
    entries = list(itertools.chain.from_iterable(entries_at(trace, number) for number in trace.numbers))
    bad = any(entry.endswith("fail") or entry.startswith("never") for entry in entries)
    first = f"events {len(trace.events)} lines {len(trace.lines(len(trace.events)))}"
    last = f"kept {len(kept)} dropped {len(trace.events) - len(kept)}"
    place = len(trace.events) // 2
    lines = trace.lines(place)
    fronts = [f"place {place} lines {len(lines)}"]
    fronts += [f"line {line * trace.size:#x} front {least(trace, line, place)} count {len(trace.stores(line, place))}" for line in lines]
    yield ["check"], (int(bad), text_of([first, *entries, last]))
    trimmed = (0, text_of([head, *(spelled(trace.event(number)) for number in kept)]))
    yield ["trim"], trimmed
    yield ["trim", "--stream"], trimmed
    yield ["fronts", str(place)], (0, text_of(fronts))


def is_open(trace, number):
    """A flush whose thread has not fenced since."""
    word, thread = trace.event(number)[:2]
    later = (trace.event(other)[:2] for other in range(number + 1, len(trace.events) + 1))
    return word in FLUSHES and not any(other == thread and fence in FENCES for fence, other in later)


def streamed(head, trace):
    """What is out of the stream after these events: what is kept of them before the oldest open flush."""
    settled = itertools.takewhile(lambda number: not is_open(trace, number), trace.numbers)
    return text_of([head, *(spelled(trace.event(number)) for number in settled if is_kept(trace, number))])


def stream_is_right(program, head, trace):
    """At every place a faulty line shows what is out there."""
    for place in range(len(trace.events) + 1):
        before = Trace(trace.size, trace.events[:place])
        text = text_of([head, *map(spelled, before.events), "faulty"])
        done = subprocess.run([program, "trim", "--stream"], input=text, capture_output=True, timeout=120)
        fault = f"trace line {place + 2}: bad-word\n".encode()
        if (done.returncode, done.stdout, done.stderr) != (3, streamed(head, before), fault):
            return False
    return True


def grouped_trace(choose):
    """The header and some events of few kinds, so that several have one cause or one place, and wait long for a flush."""
    size, threads, lines = choose.choice((32, 64)), choose.choice((1, 1, 2, 3)), choose.choice((1, 1, 2, 3))
    at = lambda: 0x1000 + size * choose.randrange(lines)
    make = {
        "store": lambda: ("store", choose.randrange(threads), at() + choose.choice((0, 8)), bytes([choose.choice((1, 2))])),
        "flush": lambda: (choose.choice((*FLUSHES, *FLUSHES, "clflush")), choose.randrange(threads), at()),
        "fence": lambda: (choose.choice(FENCES), choose.randrange(threads)),
        "persist": lambda: ("isPersist", choose.randrange(threads), 0x1000, choose.choice((1, 3 * size))),
        "ordered": lambda: ("isOrderedBefore", choose.randrange(threads), 0x1000, choose.choice((1, 3 * size)), at(), 1),
    }
    kinds = choose.choices(list(make), (5, 2, 6, 3, 3), k=choose.randrange(6, 24))
    return f"pmtrace 2 {size}", Trace(size, [make[kind]() for kind in kinds])


def long_trace(choose):
    """The header and events of a range of many cache lines, most of which lose a store; some are flushed, and some of those fenced."""
    size, stored = choose.choice((32, 64)), choose.randrange(7, 11)
    lines = [0x1000 + size * line for line in range(12)]
    events = [("store", 0, at + 8 * choose.randrange(2), bytes([1, 2])) for at in choose.sample(lines, stored)]
    for at in choose.sample(lines, choose.randrange(4)):
        events.insert(choose.randrange(len(events)), (choose.choice(FLUSHES), choose.randrange(2), at))
    events.insert(choose.randrange(len(events)), ("sfence", choose.randrange(2)))
    return f"pmtrace 2 {size}", Trace(size, [*events, ("isPersist", 0, 0x1000 + choose.randrange(2), 12 * size - 1)])


class Explaining:
    """What `explain` tells of all findings, their groups and the tables; and which faults were planted, how often, and which were missed."""

    def __init__(self, program, file, choose):
        self.program, self.file, self.choose = program, file, choose
        self.planted, self.missed = dict.fromkeys(JSON, 0), []

    def wrong(self, trace):
        """What is told wrongly, if anything; half of the traces have labels. Of what is right one copy is spoilt, and judged too."""
        often = self.choose.choice((0, 0, 0.5, 1))
        labels = {number: self.choose.choice(PLACES) for number in trace.numbers if self.choose.random() < often}
        names = self.file.with_name("labels")
        names.write_bytes(text_of(f"{number} {label}" for number, label in labels.items()))
        explained = Explained(trace, [], labels)
        words = ["--json", *["--labels", names] * bool(labels), "--limit", "all", self.file]
        told = subprocess.run([self.program, "explain", *words], capture_output=True, timeout=120).stdout
        wrong = judged(explained, told, ALL)
        if wrong:
            return f"{labels}: {wrong}"
        self.spoil(explained, told)
        return None

    def spoil(self, explained, told):
        """Plants of the faults that have room the one that was planted least often."""
        for name in sorted(self.planted, key=self.planted.get):
            if bad := in_json(name, told):
                self.planted[name] += 1
                if judged(explained, bad, ALL) is None:
                    self.missed.append(f"{name}, in\n{bad.decode()}")
                return


def answers_are_right(program, file, head, trace):
    """What is judged of a trace, and whether the program is right there."""
    kept = [number for number in trace.numbers if is_kept(trace, number)]
    yield "the selection", is_faithful(trace, kept) and none_can_go(trace, kept)
    yield "the stream", stream_is_right(program, head, trace)
    for (command, *words), wanted in answers(head, trace):
        done = subprocess.run([program, command, file, *words], capture_output=True, timeout=120)
        yield command, (done.returncode, done.stdout) == wanted


class Machine(Checks):
    """All answers to random traces."""

    def setUp(self):
        self.file = self.new_folder() / "trace"

    def test_answers(self):
        """The selection, the stream and the answer of each command, of traces of all kinds of events."""
        choose = random.Random(20)
        for head, trace in (random_trace(choose) for _ in range(TRACES)):
            self.write(head, trace)
            for what, right in answers_are_right(self.program, self.file, head, trace):
                self.expect(what, right, f"not right of\n{self.file.read_text()}")

    def write(self, head, trace):
        self.file.write_bytes(text_of([head, *map(spelled, trace.events)]))

    def test_explain(self):
        """What is told of these and of others, in groups and with long ranges; of what is right the judge notices each fault that is planted."""
        choose, by_groups = random.Random(20), random.Random(21)
        explaining = Explaining(self.program, self.file, by_groups)
        made = [(random_trace, choose, TRACES), (grouped_trace, by_groups, GROUPED), (long_trace, by_groups, LONG)]
        for make, chosen, count in made:
            for head, trace in (make(chosen) for _ in range(count)):
                self.write(head, trace)
                wrong = explaining.wrong(trace)
                self.expect("explain", wrong is None, f"{wrong}\nof\n{self.file.read_text()}")
        for name, times in explaining.planted.items():
            self.expect(name, times >= PLANTED, f"planted {times} times")
        self.expect("planted faults", not explaining.missed, "\n".join(explaining.missed))
