"""Which events show a failed assertion, or a store that is lost or late, by the states of all runs."""
from machine import FENCES, FLUSHES, Trace

ANY_FLUSH = ("clflush", *FLUSHES)


class Plain(Trace):
    """A trace that is too long for a list of all states: a store is safe once a flush of its line after it is complete, as a clflush is at
    once, and another one by a fence of its thread."""

    def __init__(self, size, events):
        self.size = size
        self.events = events
        self.numbers = range(1, len(events) + 1)

    def is_safe(self, number, place):
        line = self.line(number)
        waiting = set()
        for later in range(number + 1, place + 1):
            word, thread = self.event(later)[:2]
            if word in FENCES and thread in waiting or self.is_flush_of(later, line, ("clflush",)):
                return True
            if self.is_flush_of(later, line, FLUSHES):
                waiting.add(thread)
        return False


def first(numbers, wanted):
    return next(filter(wanted, numbers), None)


def told_by(trace, store, place):
    """The events up to the place that tell what becomes of a store, by the states of all runs."""
    line = trace.line(store)
    safe = first(range(place + 1), lambda at: trace.is_safe(store, at))
    after = range(store + 1, place + 1)
    found = {store, safe}
    if safe is not None and trace.event(safe)[0] in FENCES:
        thread = trace.event(safe)[1]
        found.add(first(after, lambda at: trace.event(at)[1] == thread and trace.is_flush_of(at, line, FLUSHES)))
    flush = first(after, lambda at: trace.is_flush_of(at, line, ANY_FLUSH))
    found.add(flush)
    if flush is not None:
        fence = first(range(flush + 1, place + 1), lambda at: trace.event(at)[0] in FENCES)
        found |= {fence} if fence is not None and (safe is None or fence <= safe) else set()
    return found - {None}


def slice_of(trace, number):
    """The numbers of the events of the slice of an assertion."""
    event = trace.event(number)
    stores = set().union(*(trace.last_stores(event[at], event[at + 1], number) for at in range(2, len(event), 2)))
    return sorted({number}.union(*(told_by(trace, store, number) for store in stores)))


def own_fences(trace, store):
    """The first two fences of its own thread after a store, where it is not safe."""
    thread = trace.event(store)[1]
    fences = [at for at in range(store + 1, len(trace.events) + 1) if trace.event(at)[0] in FENCES and trace.event(at)[1] == thread]
    return [at for at in fences[:2] if not trace.is_safe(store, at)]


def standing_of(trace, store):
    """Whether a store is lost, and whether it is late, by the states of all runs; none of another event."""
    if trace.event(store)[0] != "store":
        return None
    return not trace.is_safe(store, len(trace.events)), len(own_fences(trace, store)) == 2


def store_slice_of(trace, store):
    """The numbers of the events of the slice of a store that is lost or late."""
    return sorted({*told_by(trace, store, len(trace.events)), *own_fences(trace, store)})
