"""Random programs of steps under pmtrim-record, and what judges their traces.

Threads give way by the seed. The programs are of three kinds: threads without locks, threads that take a lock, and one thread that closes
the window and opens it again. The steps, and what each of them does, are those of tests/recorders/valgrind/steps.c: so a thread's events,
their order and their bytes are known, but for sums, which must be right by what the trace has before them.
"""
import random

from recording import events_of
from running import run
from valgrind_runs import RECORD
from valgrind_windows import Run, claim_of

PAGE, LINE, LINES, MARKED = 4096, 64, 8, 4000
FLUSHES = ("clwb", "clflushopt", "clflush")
ADDED = "added"


class Program:
    """The steps of each thread, by words. Sums are in words of their own, so that no other store changes them."""

    def __init__(self, seed):
        self.seed = seed
        self.random = random.Random(seed)
        self.kind = ("free", "locked", "window")[seed % 3]
        self.count = 1 if self.kind == "window" else self.random.choice((2, 3, 4))
        self.claims = set()
        self.threads = [self.steps(number) for number in range(self.count)]

    def text(self):
        return "".join(" ".join(" ".join(map(str, step)) for step in steps) + "\n" for steps in self.threads) + "\n"

    def steps(self, number):
        made = [("f", 0, LINE * (LINES + 1 + number))]  # no other thread begins so
        length = self.random.choice((20, 60, 120))
        while len(made) < length:
            made += self.some()
        return made

    def some(self):
        if self.kind == "locked" and self.random.random() < 0.3:
            inside = [step for _ in range(self.random.randrange(1, 5)) for step in self.one()]
            return [("l",), ("i", LINE * LINES + 8 * self.random.randrange(2)), *inside, ("u",)]
        if self.kind == "window" and self.random.random() < 0.15:
            return [("C",), *(step for _ in range(self.random.randrange(8)) for step in self.one()), ("W",)]
        return self.one()

    def place(self):
        return self.random.randrange(LINES) * LINE + self.random.randrange(LINE)

    def one(self):
        chosen, at = self.random.random(), self.place()
        if chosen < 0.4:
            length = self.random.choice((1, 3, 8, 8, 16, 21))
            return [("b", min(at, LINE * LINES - length), length, self.random.randrange(1, 128))]
        if chosen < 0.5:
            return [("a", LINE * LINES + 8 * self.random.randrange(2, 4), self.random.randrange(1, 9))]
        if chosen < 0.7:
            return [("f", self.random.choice((0, 0, 1, 2)), at)]
        if chosen < 0.8:
            return [("e",)]
        if chosen < 0.85:
            return [("y",)]
        claim = ("p", at, self.random.randrange(1, 64)) if chosen < 0.92 else ("o", at, 8, self.place(), 8)
        if claim in self.claims:
            return []
        self.claims.add(claim)
        return [claim]


def words_of(at, length, value):
    """What stores by words and bytes make."""
    while length > 0:
        size = 8 if at % 8 == 0 and length >= 8 else 1
        yield ("store", at, bytes([value]) * size)
        at, length = at + size, length - size


def events_of_step(step):
    """The events of a step, without the thread."""
    word, *numbers = step
    if word == "b":
        return list(words_of(*numbers))
    if word in ("a", "i"):
        return [("store", numbers[0], (ADDED, numbers[1] if word == "a" else 1))]
    if word == "f":
        return [(FLUSHES[numbers[0]], numbers[1] // LINE * LINE)]
    if word == "e":
        return [("sfence",)]
    return [("claim", step)] if word in ("p", "o") else []


def read_event(fields, page):
    """An event of a trace as events_of_step has it."""
    if fields[0] == "store":
        return "store", int(fields[2], 16) - page, bytes.fromhex(fields[3])
    if fields[0] in FLUSHES:
        return fields[0], int(fields[2], 16) - page
    if fields[0].startswith("is"):
        word, at, length, *rest = claim_of(fields)
        return "claim", (word, at - page, length, *([rest[0] - page, rest[1]] if rest else []))
    return (fields[0],)


class Judge:
    """Judges the events of one program."""

    def __init__(self, program, events, page, last):
        self.program = program
        self.events = [(fields[1], read_event(fields, page)) for fields in events]
        self.plain = [[fields[0], fields[1], *self.shifted(fields, page)] for fields in events]
        self.last = last
        self.memory = bytearray(PAGE)

    def shifted(self, fields, page):
        """The fields of an event with addresses in the program's page."""
        return [hex(int(field, 16) - page) if field.startswith("0x") else field for field in fields[2:]]

    def fault(self):
        """What is wrong; empty if all is right."""
        return self.window_fault() if self.program.kind == "window" else self.threads_fault()

    def threads_fault(self):
        """Each thread's events are those of its steps, in order, with the right bytes; the last memory is as the trace has it."""
        wanted = [[event for step in steps for event in events_of_step(step)] for steps in self.program.threads]
        numbers, begun_by = {}, set()
        for number, event in self.events:
            if number not in numbers or not wanted[numbers[number]]:  # a number is free again when its thread has ended
                begun = [at for at, events in enumerate(wanted) if events and events[0] == event and at not in begun_by]
                if not begun:
                    return f"no thread begins with {event}"
                numbers[number] = begun[0]
                begun_by.add(begun[0])
            events = wanted[numbers[number]]
            if not events or not self.is_event(event, events.pop(0)):
                return f"thread {number} did not do {event}"
        if any(wanted):
            return "events are missing"
        return "" if bytes(self.memory) == self.last else "the last memory differs"

    def is_event(self, event, wanted):
        if event[0] != "store" or wanted[0] != "store":
            return event == wanted
        _, at, data = event
        expected = wanted[2]
        if expected[0] == ADDED:
            before = int.from_bytes(self.memory[at : at + 8], "little")
            expected = (before + expected[1]).to_bytes(8, "little")
        self.memory[at : at + len(data)] = data
        return at == wanted[1] and data == expected

    def whole(self):
        """All events of the one thread, recorded or not."""
        sums, made = bytearray(PAGE), []
        for event in (event for step in self.program.threads[0] for event in events_of_step(step)):
            if event[0] == "store":
                at, data = event[1], event[2]
                if data[0] == ADDED:
                    data = (int.from_bytes(sums[at : at + 8], "little") + data[1]).to_bytes(8, "little")
                sums[at : at + len(data)] = data
                made.append(["store", "0", hex(at), data.hex()])
            elif event[0] == "claim":
                word, at, length, *rest = event[1]
                later = [hex(rest[0]), str(rest[1])] if rest else []
                made.append(["isPersist" if word == "p" else "isOrderedBefore", "0", hex(at), str(length), *later])
            else:
                made.append([event[0], "0", *map(hex, event[1:])])
        return made

    def window_fault(self):
        """Each claim has the verdict of the whole run, and what is safe at the end is what is safe by the trace."""
        whole, window = Run(self.whole()), Run(self.plain)
        for claim, verdict in window.verdicts.items():
            if whole.verdicts.get(claim) != verdict:
                return f"{claim} is {verdict} in the window"
        if self.program.threads[0][-1] != ("C",) and whole.safe_bytes() != window.safe_bytes():
            return "what is safe at the end differs"
        return ""


def split(events):
    """The events of each program, and its page; a claim of most of a page begins one."""
    found = []
    for fields in events:
        if fields[0] == "isPersist" and int(fields[3]) == MARKED:
            found.append((int(fields[2], 16), []))
        elif found:
            found[-1][1].append(fields)
    return found


def judged(steps, pmtrim, folder, seeds):
    """Of each program of these seeds, which run one after another: its seed, what is wrong, and how often threads gave way. `steps` is
    steps.c, built; pmtrim must accept the trace."""
    programs = [Program(seed) for seed in seeds]
    pool, script, trace = folder / "pool", folder / "script", folder / "trace"
    pool.write_bytes(bytes(PAGE * len(programs)))
    script.write_text("".join(program.text() for program in programs))
    done = run([RECORD, "--labels", "no", "--seed", seeds[0], "--trace", trace, steps, pool, script])
    accepted = run([pmtrim, "check", trace])
    found = split(events_of(trace))
    if done.status != 0 or accepted.status not in (0, 1) or len(found) != len(programs):
        yield f"{seeds[0]} to {seeds[-1]}", f"{len(found)} programs are in the trace: {done.err} {accepted.err}", 0
        return
    last = pool.read_bytes()
    for number, (program, (page, events)) in enumerate(zip(programs, found)):
        switches = sum(one[1] != other[1] for one, other in zip(events, events[1:]))
        yield program.seed, Judge(program, events, page, last[PAGE * number :][:PAGE]).fault(), switches
