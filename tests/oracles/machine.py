"""The machine of docs/MODEL.md, for small traces, and what its definitions say of them.

Each state that a run can reach is listed, and every answer is taken from these lists by the words of the definitions. No front and no
other closed form is used.
"""
FLUSHES = ("clwb", "clflushopt")
FENCES = ("sfence", "mfence")


class Trace:
    """Events (word, thread, address, bytes or length, ..), their lines, and the counts of persisted stores that runs reach."""

    def __init__(self, size, events):
        self.size = size
        self.events = events
        self.numbers = range(1, len(events) + 1)
        self.reached = [self.closed({()}, 0)]
        for number in self.numbers:
            self.reached.append(self.closed({done for done in self.reached[-1] if self.allows(dict(done), number)}, number))

    def event(self, number):
        return self.events[number - 1]

    def line(self, number):
        return self.event(number)[2] // self.size

    def is_flush_of(self, number, line, words):
        return self.event(number)[0] in words and self.line(number) == line

    def stores(self, line, place):
        """The stores to the line among the first events."""
        return [number for number in range(1, place + 1) if self.event(number)[0] == "store" and self.line(number) == line]

    def lines(self, place):
        """The lines that are stored or flushed, in order of first appearance."""
        return list(dict.fromkeys(self.line(number) for number in range(1, place + 1) if self.event(number)[0] in ("store", "clflush", *FLUSHES)))

    def allows(self, done, number):
        """Whether the event may come, with so many stores of each line persisted."""
        word, thread = self.event(number)[:2]
        if word == "clflush":
            return done.get(self.line(number), 0) == len(self.stores(self.line(number), number))
        if word in FENCES:
            marked = [other for other in range(1, number) if self.event(other)[0] in FLUSHES and self.event(other)[1] == thread]
            return all(done.get(self.line(other), 0) >= len(self.stores(self.line(other), other)) for other in marked)
        return True

    def closed(self, states, place):
        """The states, and those that silent persists lead to."""
        found, new = set(states), list(states)
        while new:
            done = dict(new.pop())
            for line in self.lines(place):
                if done.get(line, 0) < len(self.stores(line, place)):
                    more = tuple(sorted({**done, line: done.get(line, 0) + 1}.items()))
                    if more not in found:
                        found.add(more)
                        new.append(more)
        return found

    def is_persisted(self, done, number):
        line = self.line(number)
        return len(self.stores(line, number)) <= dict(done).get(line, 0)

    def is_safe(self, number, place):
        """Persisted at the end of every run to the place."""
        return all(self.is_persisted(done, number) for done in self.reached[place])

    def last_store(self, byte, place):
        for number in range(place, 0, -1):
            event = self.event(number)
            if event[0] == "store" and event[2] <= byte < event[2] + len(event[3]):
                return number
        return None

    def last_stores(self, start, length, place):
        found = {self.last_store(byte, place) for byte in range(start, start + length)}
        return found - {None}

    def image(self, done):
        """What memory holds with these stores persisted, in order."""
        memory = {}
        for number in self.numbers:
            if self.event(number)[0] == "store" and self.is_persisted(done, number):
                for offset, byte in enumerate(self.event(number)[3]):
                    memory[self.event(number)[2] + offset] = byte
        return tuple(sorted(memory.items()))


def verdict(trace, number):
    """The entry of an assertion."""
    event = trace.event(number)
    first = trace.last_stores(event[2], event[3], number)
    if event[0] == "isPersist":
        return f"persist {number} {'pass' if all(trace.is_safe(store, number) for store in first) else 'fail'}"
    second = trace.last_stores(event[4], event[5], number)
    for place in range(number + 1):
        for done in trace.reached[place]:
            if any(trace.is_persisted(done, store) for store in second) and not all(trace.is_persisted(done, store) for store in first):
                return f"ordered {number} fail"
    return f"ordered {number} pass"


def of_store(trace, number):
    """The findings that stand at a store."""
    event, line = trace.event(number), trace.line(number)
    flushed = [other for other in trace.numbers if trace.is_flush_of(other, line, ("clflush", *FLUSHES))]
    earlier = trace.last_stores(event[2], len(event[3]), number - 1)
    entries = [f"overwritten {store} by {number}" for store in sorted(earlier) if not any(store < flush < number for flush in flushed)]
    if not trace.is_safe(number, len(trace.events)):
        entries.append(f"never-persisted {number} {'flushed' if any(flush > number for flush in flushed) else 'dirty'}")
    return entries


def is_redundant(trace, number):
    word, thread = trace.event(number)[:2]
    line = trace.line(number)
    fences = [other for other in range(1, number) if trace.event(other)[0] in FENCES and trace.event(other)[1] == thread]
    since = max(fences, default=0)
    twins = [other for other in range(since + 1, number) if trace.is_flush_of(other, line, FLUSHES) and trace.event(other)[1] == thread]
    covered = word in FLUSHES
    return all(trace.is_safe(store, number - 1) or covered and any(store < twin for twin in twins) for store in trace.stores(line, number))


def is_empty_fence(trace, number):
    for other in range(number - 1, 0, -1):
        word, thread = trace.event(other)[:2]
        if thread == trace.event(number)[1] and word in (*FLUSHES, *FENCES):
            return word in FENCES
    return True


def entries_at(trace, number):
    word = trace.event(number)[0]
    if word == "store":
        return of_store(trace, number)
    if word in FENCES:
        return [f"fence-without-flush {number}"] if is_empty_fence(trace, number) else []
    if word.startswith("is"):
        return [verdict(trace, number)]
    return [f"redundant-flush {number}"] if is_redundant(trace, number) else []


def least(trace, line, place):
    """How many stores of the line are persisted for sure."""
    return min(dict(done).get(line, 0) for done in trace.reached[place])


def rises(trace, number):
    return [line for line in trace.lines(number) if least(trace, line, number) > least(trace, line, number - 1)]


def is_kept(trace, number):
    word, thread = trace.event(number)[:2]
    if word == "store" or word.startswith("is"):
        return True
    if word not in FLUSHES:
        return bool(rises(trace, number))
    for other in range(number + 1, len(trace.events) + 1):
        if trace.event(other)[1] == thread:
            if trace.is_flush_of(other, trace.line(number), FLUSHES):
                return False
            if trace.event(other)[0] in FENCES:
                return len(trace.stores(trace.line(number), number)) > least(trace, trace.line(number), other - 1)
    return False


def is_faithful(trace, kept):
    """After each event a crash may leave the same images and counts as at the matching place of the cut."""
    cut = Trace(trace.size, [trace.event(number) for number in kept])
    for place in range(len(trace.events) + 1):
        matching = sum(number <= place for number in kept)
        if trace.reached[place] != cut.reached[matching]:
            return False
        if {trace.image(done) for done in trace.reached[place]} != {cut.image(done) for done in cut.reached[matching]}:
            return False
    return True


def none_can_go(trace, kept):
    ends = [number for number in kept if trace.event(number)[0] in (*FLUSHES, *FENCES, "clflush")]
    return not any(is_faithful(trace, [number for number in kept if number != end]) for end in ends)


def spelled(event):
    word, thread, *rest = event
    fields = [field.hex() if isinstance(field, bytes) else str(field) for field in rest]
    for at in range(0, len(fields), 2):
        fields[at] = f"{rest[at]:#x}"
    return " ".join([word, str(thread), *fields])


def random_trace(choose):
    """The header and some events on few lines, so that much happens to each."""
    version = choose.choice((1, 2))
    size = choose.choice((32, 64, 128, 256)) if version == 2 else 64
    flushes = FLUSHES + (("clflush",) if version == 2 else ())
    fences = FENCES if version == 2 else FENCES[:1]
    lines, threads = choose.choice((1, 2, 3)), choose.choice((1, 2, 3))
    addr = lambda: 0x1000 + size * choose.randrange(lines) + choose.choice((0, 1, 7, 8))
    events = []
    for _ in range(choose.randrange(1, 12)):
        thread = choose.randrange(threads)
        kind = choose.choices(("store", "flush", "fence", "isPersist", "isOrderedBefore"), (8, 7, 5, 1, 2))[0]
        if kind == "store":
            at = addr()
            events.append(("store", thread, at, choose.randbytes(choose.randrange(1, min(9 - at % 8, 4)))))
        elif kind == "flush":
            events.append((choose.choice(flushes), thread, addr()))
        elif kind == "fence":
            events.append((choose.choice(fences), thread))
        else:
            ranges = [addr(), choose.choice((1, 2, 9, size + 1))] + [addr(), choose.choice((1, 2, 9))] * (kind == "isOrderedBefore")
            events.append((kind, thread, *ranges))
    return ("pmtrace 1" if version == 1 else f"pmtrace 2 {size}"), Trace(size, events)


def text_of(lines):
    return "".join(line + "\n" for line in lines).encode()
