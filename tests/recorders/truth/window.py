"""What main does while the window is closed, and what must stand in the trace when it opens again.

Lines that were stored to meanwhile, and not made safe by a flush and a fence, are noted as stored; where their flush is open, it is
noted behind all stores. Where the trace has stores already, lines that were made safe are noted too, as stored and flushed at once:
a claim may be about the order of both. Plain stores to a watched pool count from the call on that looks at their line. All other threads have ended, or have
not begun.
"""
from effects import FENCES, FLUSHES, PLAIN, RECORDED, Done, looked_at, store_events, stored
from programs import DATA

STORED, FLUSHED, SAFE = range(3)
AFTER = {FLUSHED: "clwb", SAFE: "clflush"}


def fold(log):
    """The log with each closed window as one operation."""
    folded, inside = [], None
    for done in log:
        if done.word == "stop":
            inside = [done]
        elif inside is None:
            folded.append(done)
        else:
            inside.append(done)
            if done.word == "start":
                folded.append(window_of(inside))
                inside = None
    return folded + ([window_of(inside)] if inside else [])


def window_of(inside):
    return Done(("window",), inside[0].begun, inside[-1].ended, 0, 0, 0, tuple(inside))


class Closed:
    """A closed window: the changes of memory that are not in the trace, and the events that open it again."""

    def __init__(self, space, window, memory, has_stores):
        self.space = space
        self.memory = bytearray(memory)
        self.known = bytearray(memory)
        self.lines = {}
        self.changes = []
        for done in window.inside:
            if done.word in PLAIN:
                self.store_plainly(done)
            else:
                self.look(done)
            if done.word in RECORDED:
                self.follow(done)
        self.events = []
        if window.inside[-1].word == "start":
            noted = sorted(line for line, state in self.lines.items() if has_stores or state != SAFE)
            self.events = [event for line in noted for event in self.line_stores(line)]
            self.events += [f"{AFTER[self.lines[line]]} {line:#x}" for line in noted if self.lines[line] != STORED]

    def store_plainly(self, done):
        first, length, source = self.space.flat(*done.operation[1:3]), done.operation[3], done.operation[4]
        self.memory[first : first + length] = DATA[source : source + length]

    def look(self, done):
        """What was stored plainly to the lines that the call looks at is noticed."""
        if self.known == self.memory or not (done.word in RECORDED or done.word in ("stop", "start")):
            return
        lines, size = looked_at(self.space, done.operation), self.space.line_size
        for place in range(0, len(self.memory), 8):
            now = self.memory[place : place + 8]
            if now != self.known[place : place + 8]:
                address = self.space.address_of_flat(place)
                line = address - address % size
                if lines is None or line in lines:
                    self.lines[line] = STORED
                    self.known[place : place + 8] = now

    def follow(self, done):
        data = stored(self.space, done, self.memory)
        if data:
            first = self.space.flat(*done.operation[1:3])
            self.changes.append((first, bytes(self.memory[first : first + len(data)]), data))
            self.memory[first : first + len(data)] = data
            self.known[first : first + len(data)] = data
            self.lines.update((line, STORED) for line in self.space.lines(*done.operation[1:4]))
        if done.word in FLUSHES or done.word in ("persist", "stream"):
            for line in self.space.lines(*done.operation[1:4]):
                if line in self.lines and self.lines[line] != SAFE:
                    self.lines[line] = SAFE if done.word == "clflush" else FLUSHED
        if done.word in FENCES or done.word == "persist":
            self.lines = {line: SAFE if state == FLUSHED else state for line, state in self.lines.items()}

    def line_stores(self, address):
        start, first, end = self.space.line(address)
        return store_events(start, self.memory[first:end])
