"""What an operation of a random program must leave in the trace, and in memory."""
import dataclasses
import re

from programs import DATA

MOST_ASSERTED = 4096
APART = 1 << 40  # between the first addresses of pools
NEVER = 1 << 62
FLUSHES = ("clwb", "clflushopt", "clflush")
FENCES = ("sfence", "mfence")
COPIES = ("store", "copy", "move", "within", "fill", "stream")
FETCHES = {
    "add": int.__add__,
    "sub": int.__sub__,
    "and": int.__and__,
    "or": int.__or__,
    "xor": int.__xor__,
}
ATOMICS = ("exchange", "compare", *FETCHES)
PLAIN = ("plain", "relaxed")
LOOKS_AT_ALL = ("clflush", "sfence", "mfence", "persist", "close", "stop", "start")
CLAIMS = ("is_persist", "is_ordered")
RECORDED = (*FLUSHES, *FENCES, *COPIES, *ATOMICS, *CLAIMS, "persist", "window")
EVENT = re.compile(
    r"(?:(store) (\d+) (0x[0-9a-f]+ (?:[0-9a-f]{2}){1,8})|(clwb|clflushopt|clflush) (\d+) (0x[0-9a-f]+)|([sm]fence) (\d+)"
    r"|(isPersist) (\d+) (0x[0-9a-f]+ \d+)|(isOrderedBefore) (\d+) (0x[0-9a-f]+ \d+ 0x[0-9a-f]+ \d+))"
)


class Refused(Exception):
    """What in a trace is not so."""


@dataclasses.dataclass
class Done:
    """An operation and what the log says of it: its tickets, and its answers. Without an end it may have been cut short."""

    operation: tuple
    begun: int
    ended: int
    answer: int
    expected: int
    seen: int
    inside: tuple = ()

    @property
    def word(self):
        return self.operation[0]


class Space:
    """The addresses in the trace of the places of a program's pools."""

    def __init__(self, program):
        self.line_size = program.line_size
        self.pools = program.pools
        bases = [number for number, pool in enumerate(self.pools) if pool.base == number]
        self.first = {number: (rank * APART) + self.pools[number].skew % self.line_size for rank, number in enumerate(bases)}
        self.ends = {base: max(pool.flat + pool.length for pool in self.pools if pool.base == base) for base in bases}

    def flat(self, number, at):
        return self.pools[number].flat + at

    def address(self, number, at):
        pool = self.pools[number]
        return self.first[pool.base] + pool.flat - self.pools[pool.base].flat + at

    def address_of_flat(self, flat):
        base = max((base for base in self.first if self.pools[base].flat <= flat), key=lambda base: self.pools[base].flat)
        return self.first[base] + flat - self.pools[base].flat

    def flat_of_address(self, address, length):
        for base, first in self.first.items():
            flat = self.pools[base].flat
            if first <= address and address + length <= first + self.ends[base] - flat:
                return flat + address - first
        raise Refused(f"{length} bytes at {address:#x} are in no pool")

    def lines(self, number, at, length):
        """The addresses of the lines of a range."""
        first = self.address(number, at)
        return range(first - first % self.line_size, first + length, self.line_size) if length else range(0)

    def line(self, address):
        """The part of a line that is in its pool: its address and its flat range."""
        for base, first in self.first.items():
            start, end = max(address, first), min(address + self.line_size, first + self.ends[base] - self.pools[base].flat)
            if start < end:
                flat = self.pools[base].flat + start - first
                return start, flat, flat + end - start
        raise Refused(f"the line {address:#x} is in no pool")


def store_events(address, data):
    """One for each aligned word."""
    events, done, length = [], 0, len(data)
    while done < length:
        more = min(length - done, 8 - (address + done) % 8)
        events.append(f"store {address + done:#x} {data[done : done + more].hex()}")
        done += more
    return events


def pieces(address, length):
    return [f"{address + at:#x} {min(MOST_ASSERTED, length - at)}" for at in range(0, length, MOST_ASSERTED)]


def claim_events(space, operation):
    first = pieces(space.address(*operation[1:3]), operation[3])
    if operation[0] == "is_persist":
        return [f"isPersist {piece}" for piece in first]
    second = pieces(space.address(*operation[4:6]), operation[6])
    return [f"isOrderedBefore {one} {other}" for one in first for other in second]


def flush_events(space, operation):
    word = "clwb" if operation[0] == "persist" else operation[0]
    events = [f"{word} {line:#x}" for line in space.lines(*operation[1:4])]
    return events + ["sfence"] if operation[0] == "persist" else events


def copied(space, operation, memory):
    """The bytes that a copy stores, with memory as it stands."""
    word, length = operation[0], operation[3]
    if word == "fill":
        return bytes([operation[4] % 256]) * length
    if word == "within":
        first = space.flat(*operation[4:6])
        return bytes(memory[first : first + length])
    return DATA[operation[4] : operation[4] + length]


def exchanged(space, done, memory):
    """The bytes that an atomic operation stores: none where a compare_exchange fails. What it answered must stand in memory."""
    word, number, at, size, source = done.operation[:5]
    first = space.flat(number, at)
    before = int.from_bytes(memory[first : first + size], "little")
    value = int.from_bytes(DATA[source : source + size], "little")
    if done.ended != NEVER and done.seen != before:
        raise Refused(f"{done.operation} answered {done.seen:#x}, and {before:#x} stands there")
    # of one that was cut short it is not known what it expected; where it left an event, it stored
    if word == "compare" and done.ended != NEVER and done.expected != before:
        return b""
    if word in FETCHES:
        value = FETCHES[word](before, value) % (1 << 8 * size)
    return value.to_bytes(size, "little")


def stored(space, done, memory):
    """The bytes that an operation stores, or None where it is no store."""
    if done.word in COPIES:
        return copied(space, done.operation, memory)
    if done.word in ATOMICS:
        return exchanged(space, done, memory)
    return None


def looked_at(space, operation):
    """The addresses of the lines whose words a call looks at where pools are watched; None is all."""
    if operation[0] in LOOKS_AT_ALL:
        return None
    ranges = [operation[1:4]] + ([operation[4:7]] if operation[0] == "is_ordered" else [])
    return {line for one in ranges for line in space.lines(*one)}


def events_of(space, operation, data):
    """The events of an operation that stores these bytes, or None of them."""
    if data is not None:
        events = store_events(space.address(*operation[1:3]), data)
        if operation[0] == "stream":
            events += [f"clflushopt {line:#x}" for line in space.lines(*operation[1:4])]
        return events
    if operation[0] in CLAIMS:
        return claim_events(space, operation)
    if operation[0] in FENCES:
        return [operation[0]]
    return flush_events(space, operation)


def is_silent(done):
    """Whether the operation leaves nothing in the trace, though the recorder was called."""
    word = done.word
    if word == "compare":
        return done.ended != NEVER and not done.answer
    if word == "is_ordered":
        return done.operation[3] == 0 or done.operation[6] == 0
    return word not in FENCES and word not in ("persist", "window") and done.operation[3] == 0


def read_trace(text, line_size):
    """The thread and the event without it of each line."""
    lines = text.split("\n")
    if lines[0] != f"pmtrace 2 {line_size}" or lines[-1] != "":
        raise Refused(f"the first line is {lines[0]!r}, the last {lines[-1]!r}")
    events = []
    for line in lines[1:-1]:
        if EVENT.fullmatch(line) is None:
            raise Refused(f"no event: {line!r}")
        word, thread, *rest = line.split(" ", 2)
        events.append((int(thread), " ".join((word, *rest))))
    return events
