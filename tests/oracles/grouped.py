"""What `explain` tells in groups, by their definitions: failed assertions and what is never persisted by cause, late stores by place.

The findings are those of explained.py, and what a run can reach is that of machine.py.
"""
from machine import FENCES, FLUSHES

ANY_FLUSH = ("clflush", *FLUSHES)


def grouped(keyed):
    """These numbers with their keys, in groups by key: most members first, and of as many the lowest first one first."""
    groups = {}
    for key, number in keyed:
        groups.setdefault(key, []).append(number)
    return sorted(groups.items(), key=lambda group: (-len(group[1]), group[1][0]))


def frame(explained, number):
    """The innermost frame of the event's label, without its callers; None without a label."""
    label = explained.labels.get(number)
    return None if label is None else label.partition(" < ")[0]


def origin(explained, number):
    """Whence an event comes: the innermost frame of its label, or without a label its thread."""
    place = frame(explained, number)
    return ("thread", explained.trace.event(number)[1]) if place is None else ("label", place)


# Failed assertions by cause


def cause_key(explained, number):
    """What failed assertions of one cause have in common: kind, cause, and whence they come."""
    _, place, _, (store, _), _ = explained.violation(number)
    return explained.trace.event(number)[0], explained.cause(store, place)["cause"], origin(explained, number)


def causes(explained):
    """The failed assertions that are asked for, by cause."""
    return grouped((cause_key(explained, number), number) for number in explained.failing() if explained.is_asked("failure", number))


def following(trace, start, is_wanted):
    """The first event after this one that is wanted; None without one."""
    return next((number for number in range(start + 1, len(trace.events) + 1) if is_wanted(number)), None)


# What is never persisted, by cause


def lost(explained):
    """The stores that are never persisted, by line, in groups by their cause and whence the last one comes."""
    lines = {group["first"]["event"]: group for group in explained.never_persisted()}
    keyed = (((group["cause"]["cause"], origin(explained, group["last"]["event"])), first) for first, group in lines.items())
    return [[lines[first] for first in firsts] for _, firsts in grouped(keyed)]


# Late stores


def safe_place(trace, store):
    """The first place from the store on where every run has it persisted, one past the end where there is none."""
    end = len(trace.events)
    return next((place for place in range(store, end + 1) if trace.is_safe(store, place)), end + 1)


def fences_waited(trace, store):
    """How many fences of its own thread stand after the store and before it is safe; a fence that makes it safe does not count."""
    thread = trace.event(store)[1]
    return sum(trace.event(number)[0] in FENCES and trace.event(number)[1] == thread for number in range(store + 1, safe_place(trace, store)))


def late_key(explained, store):
    """Where a late store stands: the innermost frame of its label, or without a label its line."""
    place = frame(explained, store)
    return ("line", explained.address(explained.trace.line(store))) if place is None else ("label", place)


def late(explained):
    """The late stores that are asked for, by place."""
    trace = explained.trace
    stores = [number for number in trace.numbers if trace.event(number)[0] == "store" and fences_waited(trace, number) >= 2]
    return grouped((late_key(explained, store), store) for store in stores if explained.is_asked("late", store))


# What is dropped, and overwritten


def title(explained, number):
    """What a dropped event is, and where it is made."""
    word, thread = explained.trace.event(number)[:2]
    if number in explained.labels:
        return f"{word} at {explained.labels[number]}"
    if word in FENCES:
        return f"{word} by thread {thread}"
    return f"{word} of {explained.address(explained.trace.line(number))} by thread {thread}"


def dropped_groups(explained):
    """What is dropped, by title and reason, most first."""
    reasons = ((entry["event"]["event"], entry["reason"]["reason"]) for entry in explained.dropped())
    return grouped(((title(explained, number), reason), number) for number, reason in reasons)


def overwritten_groups(explained):
    """What is overwritten, by cache line: most pairs with other bytes first, then most pairs."""
    return sorted(explained.overwritten(), key=lambda group: (group["same"] - group["count"], -group["count"]))
