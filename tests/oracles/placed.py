"""What becomes of each place of a program's source, by the definitions: its stores by what becomes of them, its flushes and fences, and
the order in which places are told.

The findings are those of explained.py, and what a run can reach is that of machine.py.
"""
import functools

from grouped import ANY_FLUSH, fences_waited, following, safe_place
from machine import FENCES, is_kept

CALLER = " < "
COUNTS = ("stores", "never_persisted", "ignored", "late", "in_time", "left", "flushes", "flushes_dropped", "fences", "fences_dropped")
LEAST = 3  # of so many events of a path it is no chance that all have something


def place(explained, number):
    """The innermost frame of the event's label, or without a label its thread."""
    label = explained.labels.get(number)
    return ("thread", explained.trace.event(number)[1]) if label is None else ("label", label.partition(CALLER)[0])


def path(explained, number):
    """The call path of the event: its whole label, or without a label its thread."""
    label = explained.labels.get(number)
    return ("thread", explained.trace.event(number)[1]) if label is None else ("label", label)


def fates(explained, lost, number):
    """What the event counts as."""
    trace, word = explained.trace, explained.trace.event(number)[0]
    if word == "store":
        yield "stores"
        if number in lost:
            yield "ignored" if explained.is_ignored(number) else "never_persisted"
        else:
            waited = fences_waited(trace, number)
            yield "late" if waited >= 2 else "in_time"
            if waited == 1:
                yield "left"
    for kind, words in (("flushes", ANY_FLUSH), ("fences", FENCES)):
        if word in words:
            yield kind
            if not is_kept(trace, number):
                yield f"{kind}_dropped"


def standing(row):
    """How the place is told: first those that lose a part, the smallest share first; then those that save a part late, or all, most
    first; then those that lose all, most first; then the others, those first of whose flushes and fences most do nothing."""
    judged, lost, late = row["stores"] - row["ignored"], row["never_persisted"], row["late"]
    if lost:
        return (0, lost * 1_000_000 // judged) if lost < judged else (3, -lost)
    if late:
        return (1 if late < judged else 2, -late)
    return 4, -row["flushes_dropped"] - row["fences_dropped"]


@functools.lru_cache(maxsize=1)
def rows(explained):
    """Each place with what it has, in the order in which they are told."""
    return rows_by(explained, place)


def rows_by(explained, key_of):
    """The rows by another key."""
    lost, found = set(explained.lost_stores()), {}
    for number in explained.trace.numbers:
        row = found.setdefault(key_of(explained, number), {**dict.fromkeys(COUNTS, 0), "first": number, "first_never_persisted": None, "first_late": None, "first_left": None})
        for fate in fates(explained, lost, number):
            row[fate] += 1
            if f"first_{fate}" in row and row[f"first_{fate}"] is None:
                row[f"first_{fate}"] = number
    return sorted(found.items(), key=lambda item: (standing(item[1]), item[1]["first"]))


def is_left(row):
    """Whether one fence of its thread leaves each store of the row unsafe, and the next one saves it."""
    return 0 < row["left"] == row["in_time"] and not row["never_persisted"] and not row["late"]


@functools.lru_cache(maxsize=1)
def left_paths(explained):
    """The rows of the paths of three stores or more of which that is so of each, but not of each store of their place."""
    places = dict(rows(explained))
    return [(key, row) for key, row in rows_by(explained, path) if is_left(row) and row["left"] >= LEAST and not is_left(places[place(explained, row["first"])])]


def saved_before(explained, number):
    """What a crash right after the next fence of the store's thread keeps, though it can lose the store: of the stores that are safe by then
    the one that became so last, and of several at once the last one; None if that was safe already. The place of the crash, and the store."""
    trace, thread = explained.trace, explained.trace.event(number)[1]
    fence = following(trace, number, lambda other: trace.event(other)[0] in FENCES and trace.event(other)[1] == thread)
    saved = [(safe_place(trace, other), other) for other in trace.numbers if trace.event(other)[0] == "store"]
    place, store = max((pair for pair in saved if pair[0] <= fence), default=(0, None))
    return (fence, store) if number < place else None


def saved_entry(explained, number):
    saved = number and saved_before(explained, number)
    return saved and {"place": saved[0], "store": explained.event(saved[1])}


def entries_of(explained, what, found):
    """What the JSON has of these rows of places or paths."""
    for (kind, name), row in found:
        firsts = {member: row[member] and explained.event(row[member]) for member in ("first", "first_never_persisted", "first_late", "first_left")}
        saved = {"saved_before": saved_entry(explained, row["first_left"])}
        yield {**row, **firsts, **saved, "kind": what, "label": None, "thread": None, kind: name}
