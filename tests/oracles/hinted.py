"""What `explain` hints at, by the definitions: five sets of events, and their groups by kind and place, one also by call path.

What a run can reach, and so what is kept, is that of machine.py. Places are those of placed.py.
"""
import functools

from grouped import fences_waited, grouped, safe_place
from machine import FENCES, FLUSHES, is_kept, verdict
from placed import CALLER, LEAST, path, place

def own(trace, thread, words, numbers):
    """Those of these events that the thread makes by one of these words."""
    return [number for number in numbers if trace.event(number)[1] == thread and trace.event(number)[0] in words]


def until_fence(trace, number):
    """The events after this one up to the next fence of its thread, without that."""
    later = range(number + 1, len(trace.events) + 1)
    return range(number + 1, min(own(trace, trace.event(number)[1], FENCES, later), default=len(trace.events) + 1))


# Each set tells of an event the one that it goes with, or None where it is not in the set.


def half_before(explained, number):
    """Split word: a store, and the one that its thread made before it, from one place. The bytes of one follow those of the other, at
    most 8 together, and the later bytes begin a line."""
    trace = explained.trace
    before = own(trace, trace.event(number)[1], ("store",), range(1, number))
    if trace.event(number)[0] != "store" or not before or place(explained, before[-1]) != place(explained, number):
        return None
    (_, _, low, part), (_, _, high, rest) = sorted((trace.event(before[-1]), trace.event(number)), key=lambda event: event[2])
    is_split = low + len(part) == high and high % trace.size == 0 and len(part) + len(rest) <= 8
    return before[-1] if is_split else None


def flush_before(explained, number):
    """Stored after its flush: a store to a line that its thread has flushed and not fenced since. No flush of the line comes before the next
    fence of the thread."""
    trace = explained.trace
    word, thread = trace.event(number)[:2]
    if word != "store":
        return None
    line = trace.line(number)
    flushes = [other for other in own(trace, thread, FLUSHES, range(1, number)) if trace.line(other) == line and number in until_fence(trace, other)]
    again = [other for other in until_fence(trace, number) if trace.is_flush_of(other, line, ("clflush", *FLUSHES))]
    return flushes[-1] if flushes and not again else None


def goes_on(explained, number, line):
    """Whether the event goes on from the line: it is a store to the line right after it, and the store that its thread made before it is one to
    the line, and comes from the same place or ends where it begins."""
    trace = explained.trace
    if trace.event(number)[0] != "store" or trace.line(number) != line + 1:
        return False
    before = own(trace, trace.event(number)[1], ("store",), range(1, number))
    if not before or trace.line(before[-1]) != line:
        return False
    _, _, start, data = trace.event(before[-1])
    return place(explained, before[-1]) == place(explained, number) or start + len(data) == trace.event(number)[2]


def is_lost_or_late(trace, store):
    """Whether later fences of its thread leave the store unsafe: two of them, or one if it is never safe."""
    return fences_waited(trace, store) >= (2 if safe_place(trace, store) <= len(trace.events) else 1)


def missed_before(explained, number):
    """One line short: a flush of a line. Since the last fence of its thread a store of the thread goes on from that line, and is lost or
    late; and none goes on from the line right after. The last store of the thread to that line is what the flushes miss."""
    trace = explained.trace
    word, thread = trace.event(number)[:2]
    if word not in FLUSHES:
        return None
    line = trace.line(number)
    stores = [other for other in own(trace, thread, ("store",), range(1, number)) if number in until_fence(trace, other)]
    missed = [store for store in stores if goes_on(explained, store, line) and is_lost_or_late(trace, store)]
    further = [store for store in stores if goes_on(explained, store, line + 1)]
    return [store for store in stores if trace.line(store) == line + 1][-1] if missed and not further else None


def store_past(trace, number):
    """The next store by the thread of a flush to another line that comes before the thread's next fence, if one does."""
    stores = [other for other in own(trace, trace.event(number)[1], ("store",), until_fence(trace, number)) if trace.line(other) != trace.line(number)]
    return stores[0] if stores else None


@functools.lru_cache(maxsize=2)
def kept_flushes(explained, key_of=place):
    """The flushes that are kept, by place, or by another key."""
    found = {}
    for number in explained.trace.numbers:
        if explained.trace.event(number)[0] in FLUSHES and is_kept(explained.trace, number):
            found.setdefault(key_of(explained, number), []).append(number)
    return found


@functools.lru_cache(maxsize=1)
def claims(explained):
    """Of the assertions that pass, each with its ranges."""
    trace, found = explained.trace, []
    for number in trace.numbers:
        word, _, *fields = trace.event(number)
        if word.startswith("is") and verdict(trace, number).endswith("pass"):
            found.append((number, [fields[at : at + 2] for at in range(0, len(fields), 2)]))
    return found


@functools.lru_cache(maxsize=1)
def claimed(explained):
    """The stores of which an assertion that passes claims that they are saved: the last ones to bytes of its range, or of its first one."""
    return {store for number, ranges in claims(explained) for store in explained.trace.last_stores(*ranges[0], number)}


def is_excused(explained, number):
    """Whether the flush saves a store that is claimed: it is the first flush of the store's line, of those that are kept, after the store."""
    trace, line = explained.trace, explained.trace.line(number)
    before = [other for other in range(1, number) if trace.is_flush_of(other, line, ("clflush", *FLUSHES)) and is_kept(trace, other)]
    return any(trace.line(store) == line and store in range(max(before, default=0), number) for store in claimed(explained))


@functools.lru_cache(maxsize=1)
def ordered(explained):
    """Of the isOrderedBefore that pass, as of each of them, the last stores to the bytes of first ranges, and to those of second ranges: marks."""
    orders = [(number, ranges) for number, ranges in claims(explained) if len(ranges) == 2]
    return [{store for number, ranges in orders for store in explained.trace.last_stores(*ranges[at], number)} for at in (0, 1)]


def mark_before(explained, number):
    """Stored after its mark: a store that is no mark and in no first range. Before it, without a fence of its thread between, the thread makes a mark, at
    the same place and another address."""
    trace, (firsts, marks) = explained.trace, ordered(explained)
    if trace.event(number)[0] != "store" or number in firsts | marks:
        return None
    before = [mark for mark in own(trace, trace.event(number)[1], ("store",), range(1, number)) if mark in marks and number in until_fence(trace, mark)]
    found = [mark for mark in before if place(explained, mark) == place(explained, number) and trace.event(mark)[2] != trace.event(number)[2]]
    return found[-1] if found else None


def are_open(explained, flushes):
    """Whether each of the flushes is unfenced when its thread stores to another line."""
    return all(store_past(explained.trace, flush) for flush in flushes)


def store_elsewhere(explained, number, key_of=place):
    """Open at a store: a flush that is kept, and that its thread has not fenced when it stores to another line. It is told where that is so of
    each kept flush of its place, or path, and none of these is excused."""
    flushes, trace = kept_flushes(explained, key_of).get(key_of(explained, number), []), explained.trace
    is_told = number in flushes and are_open(explained, flushes) and not any(is_excused(explained, flush) for flush in flushes)
    return store_past(trace, number) if is_told else None


def is_told_on_path(explained, number):
    """Whether that is told of the flush's path alone: it is not so of each kept flush of its place."""
    return bool(store_elsewhere(explained, number, path)) and not are_open(explained, kept_flushes(explained)[place(explained, number)])


SETS = {
    "split_word": half_before,
    "stored_after_flush": flush_before,
    "stored_after_mark": mark_before,
    "one_line_short": missed_before,
    "open_at_store": store_elsewhere,
}


@functools.lru_cache(maxsize=1)
def hints(explained):
    """Of each hint its kind, place and events: those of one kind with most events first, and of as many that with the lowest one."""
    found = []
    for kind, goes_with in SETS.items():
        events = [number for number in explained.trace.numbers if goes_with(explained, number)]
        found += [(kind, key, numbers) for key, numbers in grouped((place(explained, number), number) for number in events)]
    return found


@functools.lru_cache(maxsize=1)
def path_hints(explained):
    """Of each path of which three events or more are open at a store, and that are told of the path alone, its label and these events."""
    events = [number for number in explained.trace.numbers if is_told_on_path(explained, number)]
    return [(key[1], numbers) for key, numbers in grouped((path(explained, number), number) for number in events) if len(numbers) >= LEAST]


def entries(explained):
    """What the JSON has of those whose first event is asked for."""
    for kind, (origin, name), numbers in hints(explained):
        if explained.is_asked("hint", numbers[0]):
            own = {"label": None, "thread": None, "path": None, origin: name}
            yield {"kind": "hint", "hint": kind, "count": len(numbers), "first": explained.event(numbers[0]), **own}
    for label, numbers in path_hints(explained):
        if explained.is_asked("hint", numbers[0]):
            own = {"label": label.partition(CALLER)[0], "thread": None, "path": label}
            yield {"kind": "hint", "hint": "open_at_store", "count": len(numbers), "first": explained.event(numbers[0]), **own}
