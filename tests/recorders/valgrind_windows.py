"""Windows of pmtrim-record: programs of random steps, recorded whole and by windows. A claim in a window must have the verdict that the
rules give it in the whole run, and a base must have what is safe when the window opens. The steps are those of steps.c."""
import collections
import random
import re

from recording import events_of
from valgrind_runs import Recorded, drawn

PROGRAMS, STEPS, LINES, LINE = 10, 120, 6, 64
POOL = 4096
CARRIED = """\
store 0 0x0 07
store 0 0x80 01
clwb 0 0x80
sfence 0
isPersist 0 0x0 1
"""
# Each time what was forgotten behind the window before is carried into the next one.
AGAIN = """\
store 0 0x40 01
clwb 0 0x40
sfence 0
store 0 0x48 01
store 0 0x80 02
clwb 0 0x80
sfence 0
store 0 0x88 02
store 0 0xc0 03
clwb 0 0xc0
sfence 0
"""


class Script:
    """Random steps of some threads; each claim is made once, so that it tells which one it is."""

    def __init__(self, seed):
        self.random = random.Random(seed)
        self.claims = set()
        self.threads = self.random.choice((1, 1, 2, 3))
        self.by_requests = seed % 2 == 0
        self.lines = [self.thread() for _ in range(self.threads)]

    def text(self):
        return "".join(" ".join(line) + "\n" for line in self.lines)

    def range(self, lengths):
        return self.random.randrange(LINES) * LINE + self.random.randrange(LINE - 4), self.random.choice(lengths)

    def claim(self, word, *numbers):
        claim = (word, *numbers)
        if claim in self.claims:
            return "e"
        self.claims.add(claim)
        return " ".join(map(str, claim))

    def step(self):
        chosen, (at, length) = self.random.random(), self.range((1, 2, 4, 8, 12, 30))
        if chosen < 0.4:
            return f"s {at} {length} {self.random.randrange(1, 100)}"
        if chosen < 0.44:
            return f"n {at // 8 * 8} {self.random.randrange(1, 1000)}"
        if chosen < 0.6:
            return f"f {self.random.choice((0, 0, 1, 2))} {at}"
        if chosen < 0.7:
            return "e"
        if chosen < 0.8:
            return self.claim("p", at, length)
        if chosen < 0.92:
            return self.claim("o", at, length, *self.range((1, 4, 8)))
        return self.random.choice("WWC") if self.by_requests else "e"

    def thread(self):
        made, held = [], False
        for _ in range(self.random.randrange(STEPS // 2, STEPS)):
            made.append(self.step())
            if self.threads > 1 and self.random.random() < 0.1:
                made.append("u" if held else "l")
                held = not held
        return [*made, "u"] if held else made


class Run:
    """The events of a trace by the rules: what is safe after each, and the verdicts of claims."""

    def __init__(self, events):
        self.stores = []
        self.safe_at = {}
        self.pending = collections.defaultdict(list)
        self.flushed = collections.defaultdict(dict)
        self.last = {}
        self.verdicts = {}
        for self.place, fields in enumerate(events, 1):
            self.follow(fields[0], fields[1], [int(fields[2], 16)] if len(fields) > 2 else [], fields[3:])

    def follow(self, word, thread, address, rest):
        if word == "store":
            self.store(address[0], bytes.fromhex(rest[0]))
        elif word in ("clwb", "clflushopt"):
            self.flushed[thread][address[0] // LINE] = self.place
        elif word == "clflush":
            self.make_safe(address[0] // LINE, self.place)
        elif word in ("sfence", "mfence"):
            for line, place in self.flushed.pop(thread, {}).items():
                self.make_safe(line, place)
        elif word == "isPersist":
            self.verdicts["p", address[0], int(rest[0])] = all(store in self.safe_at for store in self.lasts(address[0], int(rest[0])))
        else:
            self.order(address[0], int(rest[0]), int(rest[1], 16), int(rest[2]))

    def store(self, address, data):
        number = len(self.stores)
        self.stores.append((self.place, address, data))
        self.pending[address // LINE].append(number)
        self.last.update((at, number) for at in range(address, address + len(data)))

    def make_safe(self, line, place):
        waiting = self.pending.pop(line, [])
        self.safe_at.update((number, self.place) for number in waiting if self.stores[number][0] < place)
        self.pending[line] = [number for number in waiting if self.stores[number][0] >= place]

    def lasts(self, start, length):
        return {self.last[at] for at in range(start, start + length) if at in self.last}

    def order(self, start, length, later, later_length):
        pairs = [(one, other) for one in self.lasts(start, length) for other in self.lasts(later, later_length)]
        kept = all(self.comes_before(*pair) for pair in pairs)
        self.verdicts["o", start, length, later, later_length] = kept

    def comes_before(self, one, other):
        same_line = self.stores[one][1] // LINE == self.stores[other][1] // LINE
        return (same_line and one < other) or (one in self.safe_at and self.safe_at[one] <= self.stores[other][0])

    def safe_bytes(self):
        """The pool with what is safe and no more."""
        memory = bytearray(POOL)
        for number, (_, address, data) in enumerate(self.stores):
            if number in self.safe_at:
                memory[address : address + len(data)] = data
        return bytes(memory)


def claim_of(fields):
    if fields[0] == "isPersist":
        return "p", int(fields[2], 16), int(fields[3])
    return "o", int(fields[2], 16), int(fields[3]), int(fields[4], 16), int(fields[5])


class Windows(Recorded):
    """What a window has, and what its claims say."""

    def test_what_was_forgotten_is_carried(self):
        """A claim fails about a store that was forgotten before the window; the base has what was saved before it alone."""
        program, pool = self.build("carried"), self.folder / "carried.pool"
        for name, words, options in (("a request", [], []), ("a function", ["function"], ["--start-after", "set_up"])):
            trace, _, _, faults = self.record("carried", [program, pool, *words], "--base", *options)
            self.is_text(f"carried by {name}", trace, CARRIED)
            status, report = self.report(trace)
            self.expect(f"carried by {name}: its claim", status == 1 and "persist 5 fail" in report, report)
            self.expect(f"carried by {name}: told", "5 events of 1 thread" in faults and ", 1 carried into the window" in faults, faults)
            label = trace.with_name(f"{trace.name}.labels").read_text().splitlines()[0]
            self.expect(f"carried by {name}: its label", re.fullmatch(r"1 carried\.c:\d+ \w+ \(before the window\)", label), label)
            base = trace.with_name(f"{trace.name}.base").read_bytes()
            self.expect(f"carried by {name}: its base", base == bytes(256) + b"\t" + bytes(POOL - 257), "it differs")
        trace, _, _, faults = self.record("carried", [program, pool, "read"], "--base")
        self.is_text("carried: a store of the system before", trace, CARRIED)
        told = "stores before the window that the base has, though they are not safe: 1" in faults
        self.expect("carried: what is not known is told", told, faults)

    def test_a_window_opens_again(self):
        """A window by functions opens each time the first one returns."""
        pool = self.folder / "again.pool"
        trace, _, _, faults = self.record("again", [self.build("again"), pool], "--start-after", "begin", "--stop-at", "end")
        self.is_text("a window opens again", trace, AGAIN)
        self.expect("a window opens again: told", ", 2 carried into the window" in faults and "events after the window: 3" in faults, faults)

    def test_a_child_has_nothing_of_its_parent(self):
        """A child's window has nothing that its parent saved: an order of what was stored there can't be judged, and is not claimed."""
        folder, program = self.folder / "inherited.runs", self.build("inherited")
        folder.mkdir()
        words = [program, self.folder / "inherited.pool"]
        faults = self.record("inherited.runs/run", words, "--start-after", "begin", "--trace-children", "yes")[3]
        found = [path.read_text() for path in folder.glob("run.trace.[0-9]*") if path.suffix[1:].isdigit()]
        self.expect("a child's window: its trace", found == ["pmtrace 2 64\n"], found)
        told = "claims that a range is saved before one that was stored to before the window: 1" in faults
        self.expect("a child's window: told", told, faults)

    def test_random_windows_have_the_verdicts_of_the_run(self):
        program = self.build("steps")
        self.judged = self.failed = 0
        for seed in range(1, PROGRAMS + 1):
            self.random_program(program, seed)
        self.expect("random windows: claims", self.judged > 50 and self.failed > 10, (self.judged, self.failed))

    def random_program(self, program, seed):
        script, text, pool = Script(seed), self.folder / f"steps.{seed}", self.folder / "steps.pool"
        text.write_text(script.text())
        whole = self.record_anew(f"whole.{seed}", [program, pool, text, "whole"], "--seed", seed)
        words, options, first = [program, pool, text], ["--seed", seed], None
        if not script.by_requests:
            first = script.random.randrange(2, len(whole) + 1)
            words.append("whole")
            options += ["--base", "--events", f"{first}-{script.random.choice(('', script.random.randrange(first, len(whole) + 1)))}"]
        window = self.record_anew(f"window.{seed}", words, *options)
        self.compare(seed, whole, window)
        if first is not None:
            base = (self.folder / f"window.{seed}.trace.base").read_bytes()
            self.expect(f"window {seed}: its base", base == Run(whole[: first - 1]).safe_bytes(), f"it differs at event {first}")

    def record_anew(self, name, words, *options):
        def begun_anew():
            words[1].write_bytes(bytes(POOL))
            return self.record(name, words, *options, accepted=False)

        return events_of(drawn(begun_anew)[0])

    def compare(self, seed, whole, window):
        """The verdicts that the program gives the window's claims are those of the whole run."""
        wanted = Run(whole).verdicts
        _, report = self.report(self.folder / f"window.{seed}.trace")
        verdicts = re.findall(r"^(?:persist|ordered) (\d+) (pass|fail)$", report, re.M)
        found = {claim_of(window[int(number) - 1]): word == "pass" for number, word in verdicts}
        wrong = [claim for claim, verdict in found.items() if wanted.get(claim) != verdict]
        claims = sum(fields[0].startswith("is") for fields in window)
        self.expect(f"window {seed}: the whole run's verdicts", not wrong and len(found) == claims, wrong)
        self.judged += claims
        self.failed += sum(not verdict for verdict in found.values())
