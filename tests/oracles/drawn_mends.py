"""What a picture must show of the mend that `explain --json` names, and what the trace is once the marks are put in where they stand."""
import json
import re
import subprocess

from drawn import SVG, of_class, title_of
from machine import FENCES, FLUSHES
from slices import Plain

WORDS = {"store": "store here", "flush": "clwb here", "fence": "sfence here"}
AFTER = "from here on: the run without the crash"


def told_mend(program, file, picture):
    """The mend that JSON has for the crash that the picture is about; None where it is about none."""
    about = re.match(r"is\w+ (\d+) fails\.|Never persisted", title_of(picture.root))
    if about is None:
        return None
    words = ["--failure", about[1]] if about[1] else ["--limit", "1000000", "--only", "never_persisted"]
    lines = subprocess.run([program, "explain", "--json", *words, file], capture_output=True, timeout=120).stdout.splitlines()
    entries = [entry for entry in map(json.loads, lines) if entry["kind"] == ("failure" if about[1] else "never_persisted")]
    return next(entry["mend"] for entry in entries if about[1] or entry["first"]["event"] == int(picture.crashes[0].get("data-lost")))


def wanted_marks(trace, mend):
    """The kind and the thread of each mark, in order; a fence of the flush's thread that stands there already is not missing."""
    if mend is None:
        return []
    if mend["mend"] == "fence":
        return [("fence", mend["thread"])]
    first = mend["store"] if mend["mend"] == "store_first" else mend["after"]
    thread = trace.event(first)[1]
    saving = [("flush", thread), ("fence", thread)]
    if mend["mend"] == "store_first":
        return [("store", thread), *([] if mend["same_line"] else saving)]
    return saving if standing_fence(trace, mend) == mend["before"] else saving[:1]


def marks_of(picture):
    return picture.of_class("g", "missing")


def standing_fence(trace, mend):
    """The next fence of the store's thread that stands in time, before which its flush is missing; or else the event that the mend names."""
    thread = trace.event(mend["after"])[1]
    fences = [at for at in range(mend["after"] + 1, mend["before"] or len(trace.events) + 1) if trace.event(at)[0] in FENCES and trace.event(at)[1] == thread]
    return fences[0] if fences else mend["before"]


def limits_are_told(trace, mark, mend):
    """The event before which a missing one has to come."""
    before = standing_fence(trace, mend) if mend["mend"] == "flush_and_fence" else mend["before"]
    return mark.get("data-before") == (str(before) if before else None) and (before is None or title_of(mark).endswith(f" before event {before}"))


def mends_are_shown(picture, trace, mend):
    """Just what the mend names is marked: between its two events, in the row of its thread, with its word."""
    marks = marks_of(picture)
    if [(mark.get("data-missing"), int(mark.get("data-thread"))) for mark in marks] != wanted_marks(trace, mend):
        return False
    told = all(limits_are_told(trace, mark, mend) for mark in marks)
    placed = all(is_between(picture, mark, mend, len(trace.events)) and is_in_row(picture, mark) for mark in marks)
    return told and placed and flushes_are_over_lines(picture) and are_apart(picture)


def is_between(picture, mark, mend, end):
    """All events up to the mend's first one stand left of the mark, and those from its second one on right."""
    high = mend["before"] or end + 1
    low = high - 1 if mend["mend"] == "store_first" else mend["after"]
    x = int(mark.get("data-x"))
    return all(number < high if middle < x else number > low for number, middle in picture.middle.items())


def is_in_row(picture, mark):
    shape, = [part for part in mark if "mend" in part.get("class", "").split()]
    word, = of_class(mark, "text", "mend-word")
    name, = [text for text in picture.drawn.iter(SVG + "text") if text.text == f"thread {mark.get('data-thread')}"]
    if shape.tag == SVG + "rect":
        middle = int(shape.get("x")) + int(shape.get("width")) // 2, int(shape.get("y")) + int(shape.get("height")) // 2
    else:
        left, top, right = map(int, re.match(r"M(\d+) (\d+)H(\d+)L", shape.get("d")).groups())
        middle = (left + right) // 2, top + 6
    detail, = (part for part in mark.iter() if "mend-detail" in part.get("class", "").split())
    told = f"{address} by T{mark.get('data-thread')}" if (address := missing_line(mark)) else f"by T{mark.get('data-thread')}"
    is_named = word.text.strip() == WORDS[mark.get("data-missing")] and detail.text == told
    return is_named and middle == (int(mark.get("data-x")), int(name.get("y")) - 4)


def missing_line(mark):
    """The address of the line that a missing flush is of."""
    found = re.match(r"missing: clwb (0x[0-9a-f]+) ", title_of(mark))
    return found and found[1]


def flushes_are_over_lines(picture):
    """Each missing flush has a small mark in the row of its line, if that is drawn, and no row has another one."""
    marks = marks_of(picture)
    wanted = sorted((int(line, 16), int(mark.get("data-x"))) for mark in marks if (line := missing_line(mark)) and int(line, 16) in picture.lines)
    shown = [(int(row.get("data-line"), 16), part.get("d")) for row in picture.rows for part in of_class(row, "path", "mend")]
    return wanted == sorted((line, int(re.match(r"M(\d+) ", path)[1]) + 5) for line, path in shown)


def are_apart(picture):
    """No mark stands on an event, on another mark, on the dots or on the crash."""
    taken = [*picture.middle.values(), *(int(line.get("x1")) for name in ("cut", "crash") for line in of_class(picture.drawn, "line", name))]
    own = [int(mark.get("data-x")) for mark in marks_of(picture)]
    return len(set(own)) == len(own) and not any(abs(x - other) < 11 for x in own for other in taken)


def is_mended(picture, trace, mend):
    """With the marks put in where they stand, the crash does not lose its store, or keep the other one without it."""
    if mend is None:
        return True
    new, events = put_in(picture, trace)
    crash, = picture.crashes
    place, lost, kept = (int(crash.get(name) or 0) for name in ("data-place", "data-lost", "data-kept"))
    mended = Plain(trace.size, events)
    if crash.get("data-event") is None:
        return mended.is_safe(new[lost], len(events))
    if not kept:
        return mended.is_safe(new[lost], new[place])
    is_before = trace.line(kept) == trace.line(lost) and new[lost] < new[kept]
    return is_before or new[lost] < new[kept] and mended.is_safe(new[lost], new[kept] - 1)


def put_in(picture, trace):
    """The number that each event has once the marks are put in, and the events then."""
    marks = marks_of(picture)
    after, = {int(mark.get("data-after")) for mark in marks}
    put, moved = [], set()
    for mark in marks:
        kind, thread = mark.get("data-missing"), int(mark.get("data-thread"))
        if kind == "store":
            number = int(re.match(r"missing: store (\d+) ", title_of(mark))[1])
            moved.add(number)
            put.append((number, trace.event(number)))
        elif kind == "flush":
            put.append((0, ("clwb", thread, int(re.match(r"missing: clwb (0x[0-9a-f]+) ", title_of(mark))[1], 16))))
        else:
            put.append((0, ("sfence", thread)))
    numbered = [(number, trace.event(number)) for number in trace.numbers if number not in moved]
    rows = [*(row for row in numbered if row[0] <= after), *put, *(row for row in numbered if row[0] > after)]
    return {row[0]: at for at, row in enumerate(rows, 1)}, [event for _, event in rows]


def after_is_pale(picture):
    """What comes after the crash is paled, and words at its line say that the run went on without it."""
    place = int(picture.crashes[0].get("data-place")) if picture.crashes else None
    late = [middle for number, middle in picture.middle.items() if place is not None and number > place]
    pale = picture.of_class("rect", "after")
    if not late:
        return not pale and AFTER not in picture.words()
    sides = [(int(veil.get("x")), int(veil.get("x")) + int(veil.get("width"))) for veil in pale]
    return AFTER in picture.words() and all(any(left < x < right for left, right in sides) == (x in late) for x in picture.middle.values())


def kept_is_told(picture, trace):
    """Of a store that the crash keeps and no flush follows by then, the picture says how it can be kept."""
    about = re.match(r"is\w+ (\d+) fails\.", title_of(picture.root))
    kept = picture.crashes[0].get("data-kept") if about else None
    place = int(picture.crashes[0].get("data-place")) if about else 0
    flushed = kept and any(trace.is_flush_of(at, trace.line(int(kept)), ("clflush", *FLUSHES)) for at in range(int(kept) + 1, place + 1))
    told = f"Store {kept} is kept without a flush: the cache may write its line back by itself."
    return (told in " ".join(picture.words().split())) == bool(kept and not flushed)
