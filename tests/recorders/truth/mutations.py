"""Changes of a true record that make it false. The judge must refuse each, else it proves nothing.

A run of a program that ended by closing its trace is changed: a line of the trace, a pair of its lines, an answer of the log, or a byte
of the last memory. Two operations of two threads are swapped only where their tickets or their answers say which came first.
"""
import copy
import random

from effects import ATOMICS, FETCHES, NEVER, Refused
from judge import Judge


class Mutations:
    """Makes false records of one true one, and asks the judge about each."""

    def __init__(self, program, logs, text, memory):
        self.record = (program, logs, text, memory)
        self.program = program
        self.random = random.Random(program.seed)
        self.lines = text.splitlines(keepends=True)
        self.judge = Judge(*self.record)
        self.judge.judge()
        self.alone = sum(1 for actor in self.judge.actors if actor.loud) < 2

    def refused(self):
        """The name of each change that makes a false record of this one, and whether the judge refuses it."""
        for make in MUTATIONS:
            changed = make(self)
            if changed is None or self.is_same(changed):
                continue
            try:
                Judge(*changed).judge()
                yield make.__name__, False
            except Refused:
                yield make.__name__, True

    def is_same(self, changed):
        """Whether nothing was changed: of two threads with one number the events may be equal."""
        return changed[2] == self.record[2] and changed[1] is self.record[1] and changed[3] == self.record[3]

    def with_lines(self, lines):
        return (self.program, self.record[1], "".join(lines), self.record[3])

    def is_exact(self):
        """Whether each event has its one place: what threads notice of each other may stand elsewhere too."""
        return self.alone or not self.program.watched

    def one_of(self, *words):
        """The number of a line with one of these words."""
        found = [at for at, line in enumerate(self.lines) if at and line.split(" ")[0] in words]
        return self.random.choice(found) if found else None

    def replaced(self, at, line):
        return self.with_lines([*self.lines[:at], *line, *self.lines[at + 1 :]])

    def is_seen(self, group):
        return self.judge.groups[group][2] < self.judge.groups[group][3]

    def pairs_of_groups(self, fits):
        """Neighbours in the trace, two operations of two threads for which `fits` holds, swapped."""
        found = {}
        for actor in self.judge.actors:
            found.update((group, (actor, actor.loud[at][1])) for at, group in enumerate(actor.groups))
        pairs = []
        for group in range(len(found) - 1):
            (actor, done), (other, later) = found[group], found[group + 1]
            if not self.is_seen(group) or not self.is_seen(group + 1):
                continue
            if actor is not other and fits(done, later) and actor.found > 1 and other.found > 1:
                pairs.append((self.judge.groups[group], self.judge.groups[group + 1]))
        if not pairs or self.program.watched:
            return None
        (_, _, first, middle), (_, _, _, last) = self.random.choice(pairs)
        lines = self.lines[1:]
        return self.with_lines([self.lines[0], *lines[:first], *lines[middle:last], *lines[first:middle], *lines[last:]])


def event_dropped(record):
    at = record.one_of("store", "clwb", "clflushopt", "clflush", "sfence", "mfence", "isPersist", "isOrderedBefore")
    return record.replaced(at, []) if at and record.is_exact() else None


def event_doubled(record):
    """In a watched pool no store: the same bytes may have been stored there plainly before it."""
    stores = () if record.program.watched else ("store",)
    at = record.one_of(*stores, "clwb", "clflushopt", "clflush", "sfence", "mfence", "isPersist", "isOrderedBefore")
    return record.replaced(at, [record.lines[at]] * 2) if at else None


def neighbours_swapped(record):
    """Two events of one thread."""
    lines = record.lines
    found = [
        at
        for at in range(1, len(lines) - 1)
        if lines[at] != lines[at + 1] and lines[at].rstrip().split(" ")[1] == lines[at + 1].rstrip().split(" ")[1]
    ]
    if not found or record.program.watched:
        return None
    at = record.random.choice(found)
    return record.with_lines([*lines[:at], lines[at + 1], lines[at], *lines[at + 2 :]])


def operations_swapped_in_time(record):
    return record.pairs_of_groups(lambda done, later: done.ended < later.begun)


def atomics_swapped(record):
    """Two that store to one place and answered different values."""

    def fits(done, later):
        same = done.operation[1:4] == later.operation[1:4]
        return done.word in ATOMICS and later.word in ATOMICS and same and done.seen != later.seen

    return record.pairs_of_groups(fits)


def byte_changed(record):
    at = record.one_of("store")
    if at is None:
        return None
    word, thread, address, data = record.lines[at].split()
    changed = bytearray.fromhex(data)
    changed[record.random.randrange(len(changed))] ^= 1 << record.random.randrange(8)
    return record.replaced(at, [f"{word} {thread} {address} {changed.hex()}\n"])


def address_changed(record):
    at = record.one_of("store", "clwb", "clflushopt", "clflush", "isPersist", "isOrderedBefore")
    if at is None:
        return None
    word, thread, address, *rest = record.lines[at].split()
    other = int(address, 16) + record.random.choice((1, 8, record.program.line_size))
    return record.replaced(at, [" ".join((word, thread, hex(other), *rest)) + "\n"])


def length_changed(record):
    at = record.one_of("isPersist", "isOrderedBefore")
    if at is None:
        return None
    fields = record.lines[at].split()
    return record.replaced(at, [" ".join((*fields[:-1], str(int(fields[-1]) + 1))) + "\n"])


def thread_changed(record):
    at = record.one_of("store", "clwb", "clflushopt", "clflush", "sfence", "mfence", "isPersist", "isOrderedBefore")
    if sum(1 for actor in record.judge.actors if actor.loud) > len(record.judge.numbers):
        return None  # a thread could have had another number
    others = sorted({line.split()[1] for line in record.lines[1:]})
    if at is None or len(others) < 2:
        return None
    fields = record.lines[at].split()
    others.remove(fields[1])
    fields[1] = record.random.choice(others)
    return record.replaced(at, [" ".join(fields) + "\n"]) if record.is_exact() else None


def numbers_exchanged(record):
    """The first two threads have each other's number."""
    other = {"0": "1", "1": "0"}
    lines = [line.split() for line in record.lines[1:]]
    if len({fields[1] for fields in lines}) < 2:
        return None
    lines = [" ".join((fields[0], other.get(fields[1], fields[1]), *fields[2:])) + "\n" for fields in lines]
    return record.with_lines([record.lines[0], *lines])


def kind_changed(record):
    others = {"clwb": "clflushopt", "clflushopt": "clflush", "clflush": "clwb", "sfence": "mfence", "mfence": "sfence"}
    at = record.one_of(*others)
    if at is None:
        return None
    word, rest = record.lines[at].split(" ", 1)
    return record.replaced(at, [f"{others[word]} {rest}"])


def fence_added(record):
    if len(record.lines) < 2:
        return None
    at = record.random.randrange(1, len(record.lines))
    thread = record.lines[at].split()[1]
    return record.replaced(at, [f"sfence {thread}\n", record.lines[at]])


def store_moved_behind_fence(record):
    lines = record.lines
    found = [at for at in range(1, len(lines) - 1) if lines[at].startswith("store ") and "fence " in lines[at + 1]]
    if not found or not record.is_exact():
        return None
    at = record.random.choice(found)
    if lines[at].split()[1] != lines[at + 1].split()[1]:
        return None
    return record.with_lines([*lines[:at], lines[at + 1], lines[at], *lines[at + 2 :]])


def last_line_cut(record):
    return record.with_lines([*record.lines[:-1], record.lines[-1][:-1]])


def line_size_changed(record):
    return record.with_lines([f"pmtrace 2 {32 if record.program.line_size != 32 else 64}\n", *record.lines[1:]])


def answer_changed(record):
    """Of an atomic operation that stored, or of a load of a whole word outside a closed window."""
    found, followed = [], {id(done) for actor in record.judge.actors for done in actor.log}
    for thread, log in enumerate(record.record[1]):
        for at, done in enumerate(log):
            loads = done.word == "read" and done.operation[3] == 8 and id(done) in followed
            if done.ended != NEVER and (loads or done.word in ("exchange", *FETCHES) or done.word == "compare" and done.answer):
                found.append((thread, at))
    if not found:
        return None
    thread, at = record.random.choice(found)
    logs = [list(log) for log in record.record[1]]
    logs[thread][at] = copy.copy(logs[thread][at])
    logs[thread][at].seen ^= 1 << record.random.randrange(8 * logs[thread][at].operation[3])
    return (record.program, logs, *record.record[2:])


def memory_changed(record):
    memory = bytearray(record.record[3])
    memory[record.random.randrange(len(memory))] ^= 1
    return (*record.record[:3], bytes(memory))


MUTATIONS = (
    event_dropped,
    event_doubled,
    neighbours_swapped,
    operations_swapped_in_time,
    atomics_swapped,
    byte_changed,
    address_changed,
    length_changed,
    thread_changed,
    numbers_exchanged,
    kind_changed,
    fence_added,
    store_moved_behind_fence,
    last_line_cut,
    line_size_changed,
    answer_changed,
    memory_changed,
)
