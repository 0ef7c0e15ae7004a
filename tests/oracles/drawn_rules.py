"""What a picture must show, by the states that runs reach, as machine.py lists them.

The state of a store after an event is the part of its bar that stands right of the middle of the event's column.
"""
import re
import unicodedata

from drawn import SVG, of_class, title_of
from explained import Explained
from machine import FENCES, FLUSHES, is_kept, spelled, verdict
from slices import slice_of, store_slice_of

TOLD = 24
WIDTH, HEIGHT = 1600, 2400
LETTER = {"headline": 9.1, "told": 7.9, "small": 5.5}
SIGNS = {
    *("pending", "flushed", "safe", "stored", "dot", "mark", "wait", "never", "dropped", "unfenced", "mend", "pass", "fail", "crash", "lost-store"),
}


def state_of(trace, store, number):
    """The state of a store right after an event."""
    if trace.is_safe(store, number):
        return "safe"
    line = trace.line(store)
    flushed = any(trace.is_flush_of(other, line, ("clflush", *FLUSHES)) for other in range(store + 1, number + 1))
    return "flushed" if flushed else "pending"


def stores_are_right(picture, trace):
    """Each store that is drawn, after each event that is: its state; a bar may end only once its store is safe."""
    for store in (number for number in picture.numbers if trace.event(number)[0] == "store"):
        line = trace.line(store) * trace.size
        if line not in picture.lines:
            return False
        for number in picture.numbers:
            shown = picture.state(store, line, number)
            wanted = state_of(trace, store, number) if store <= number else None
            if shown != wanted and not (shown is None and wanted == "safe"):
                return False
    return True


def bars_are_told(picture, trace):
    """The title of a bar tells each store with its place in the line, the first flush after them, and what makes them safe."""
    last = max(picture.numbers, default=0)
    for bar in picture.bars:
        line, sides = int(bar.get("data-line"), 16), range(int(bar.get("data-event")), int(bar.get("data-last")) + 1)
        stores = [number for number in picture.numbers if number in sides and trace.event(number)[0] == "store" and trace.line(number) * trace.size == line]
        told = [f"event {number}: {spelled(trace.event(number))}, at +{trace.event(number)[2] - line} of its line" for number in stores]
        if len(stores) != int(bar.get("data-drawn")) or title_of(bar) != "; ".join([*told, *fate_of(trace, stores[-1], last)]):
            return False
    return True


def fate_of(trace, store, last):
    """What becomes of a store up to the last event that is drawn, in the words of a title."""
    flush = next((at for at in range(store + 1, last + 1) if trace.is_flush_of(at, trace.line(store), ("clflush", *FLUSHES))), None)
    saved = next((at for at in range(store, last + 1) if trace.is_safe(store, at)), None)
    yield "not flushed" if flush is None else f"flushed by event {flush} of thread {trace.event(flush)[1]}"
    if saved is None:
        yield "not safe"
    else:
        word, thread = trace.event(saved)[:2]
        yield f"safe from event {saved} on, the {'fence' if word in FENCES else 'clflush'} of thread {thread}"


def worth(trace, number):
    """What the mark of a flush or fence says: that it counts, that it has no effect, or that its fence is missing."""
    word, thread = trace.event(number)[:2]
    if word not in (*FENCES, *FLUSHES, "clflush") or is_kept(trace, number):
        return "counts"
    fenced = any(trace.event(other)[0] in FENCES and trace.event(other)[1] == thread for other in range(number, len(trace.events) + 1))
    if word in FLUSHES and not fenced and not all(trace.is_safe(store, number - 1) for store in trace.stores(trace.line(number), number)):
        return "unfenced"
    return "hollow"


def worth_shown(parts):
    classes = {name for part in parts for name in part.get("class", "").split()}
    return "hollow" if "dropped" in classes else "unfenced" if "unfenced" in classes else "counts"


def flushes_are_right(picture, trace):
    """In the row of its line a flush has the sign that it has in the row of its thread, and the name of its thread."""
    for row in picture.rows:
        marks = [part for part in row if part.tag == SVG + "path" and part.get("class") != "mend"]
        small = [part for part in row if part.tag == SVG + "text" and "small" in part.get("class").split() and part.text.startswith("T")]
        names = [part for part in small if "mend-detail" not in part.get("class").split()]
        flushes = [number for number in picture.numbers if trace.event(number)[0] in ("clflush", *FLUSHES) and trace.line(number) * trace.size == int(row.get("data-line"), 16)]
        wanted = [(picture.middle[number], f"T{trace.event(number)[1]}" + "!" * (worth(trace, number) == "unfenced"), worth(trace, number)) for number in flushes]
        if [(int(name.get("x")), name.text, worth_shown([mark])) for name, mark in zip(names, marks)] != wanted or len(marks) != len(names):
            return False
    return True


def events_are_right(picture, trace, numbers):
    """Each event of the window once, with its words, its line, its sign, and the fence that completes it."""
    if picture.numbers != list(numbers):
        return False
    for element in picture.events:
        number = int(element.get("data-event"))
        event = trace.event(number)
        has_line = event[0] in ("store", "clflush", *FLUSHES)
        line = f"{trace.line(number) * trace.size:#x}" if has_line else None
        words = f"event {number}: {spelled(event)}"
        if event[0].startswith("is"):
            words += ": passes" if verdict(trace, number).endswith("pass") else ": fails"
        title = title_of(element)
        if element.get("data-line") != line or int(element.get("data-thread")) != event[1] or worth_shown(element) != worth(trace, number):
            return False
        if title != words and not (worth(trace, number) != "counts" and title.startswith(f"{words}: no effect, since ")):
            return False
        if (worth(trace, number) == "unfenced") != title.endswith("that fence is missing"):
            return False
        last = max(picture.numbers)
        fences = [other for other in range(number, last + 1) if trace.event(other)[0] in FENCES and trace.event(other)[1] == event[1]]
        if event[0] in FLUSHES and element.get("data-fence") != (str(fences[0]) if fences else None):
            return False
    return True


def crash_is_right(crash, trace):
    """A state that a run may leave at the crash's place violates the assertion."""
    number, place, lost = (int(crash.get(name)) for name in ("data-event", "data-place", "data-lost"))
    event = trace.event(number)
    if lost not in trace.last_stores(event[2], event[3], number):
        return False
    loses = [done for done in trace.reached[place] if lost > place or not trace.is_persisted(done, lost)]
    if event[0] == "isPersist":
        return place == number and bool(loses)
    kept = int(crash.get("data-kept"))
    return kept in trace.last_stores(event[4], event[5], number) and kept <= place and any(trace.is_persisted(done, kept) for done in loses)


def lost_by(trace, crash):
    """The stores that a crash loses, of those that its assertion speaks of; at the end those to the line that are never persisted."""
    place, lost = int(crash.get("data-place")), int(crash.get("data-lost"))
    if crash.get("data-event") is None:
        return {store for store in trace.stores(trace.line(lost), place) if not trace.is_safe(store, place)}
    event = trace.event(int(crash.get("data-event")))
    kept = crash.get("data-kept")
    full = trace.line(int(kept)) if kept else None
    last = trace.last_stores(event[2], event[3], int(crash.get("data-event")))
    return {store for store in last if store > place or not trace.is_safe(store, place) and trace.line(store) != full}


def losses_are_marked(picture, trace):
    """Each store that the crash loses has a mark where it begins, a bar, and a word in the bar's lane, and is counted."""
    for crash in picture.crashes:
        lost = lost_by(trace, crash)
        drawn = [store for store in lost if store in picture.middle]
        marked = {int(mark.get("data-store")): mark for mark in of_class(crash, "path", "lost-store")}
        if int(crash.get("data-losses")) != len(lost) or set(marked) != set(drawn):
            return False
        if any(f"M{picture.middle[store] - 3} " not in mark.get("d") for store, mark in marked.items()):
            return False
        lanes = [lanes_of(picture, store, trace.line(store) * trace.size) for store in drawn]
        tags = {int(tag.get("y")) for tag in of_class(crash, "rect", "tag-lost")}
        if not all(lanes) or tags != {lane - 2 for sides in lanes for lane in sides}:
            return False
    return True


def marked_losses(picture):
    """The stores with the mark of a lost one."""
    marks = (mark for crash in picture.crashes for mark in of_class(crash, "path", "lost-store"))
    return sorted(int(mark.get("data-store")) for mark in marks)


def waits_are_apart(picture):
    """In the rows of threads no line from a flush to its fence lies on another one."""
    lines = sorted(tuple(int(line.get(side)) for side in ("y1", "x1", "x2")) for line in of_class(picture.drawn, "line", "wait"))
    return not any(y == other and right > left for (y, _, right), (other, left, _) in zip(lines, lines[1:]))


def lanes_of(picture, store, line):
    """Where the bar of the store stands, if it has one."""
    for bar in picture.bars:
        if int(bar.get("data-line"), 16) == line and int(bar.get("data-event")) <= store <= int(bar.get("data-last")):
            return {int(part.get("y")) for part in bar.iter(SVG + "rect")}
    return set()


def range_is_shown(picture, trace):
    """On each line of the failed assertion: which of its bytes it speaks of."""
    failure = re.fullmatch(r"is\w+ (\d+) fails\.", title_of(picture.root))
    if failure is None:
        return not picture.of_class("text", "asserted")
    event = trace.event(int(failure[1]))
    for row in picture.rows:
        line = int(row.get("data-line"), 16)
        bytes_of = [[byte - line for byte in range(event[at], event[at + 1] + event[at]) if line <= byte < line + trace.size] for at in range(2, len(event), 2)]
        wanted = [(found[0], found[-1]) for found in bytes_of if found]
        if [(int(text.get("data-first")), int(text.get("data-last"))) for text in of_class(row, "text", "asserted")] != wanted:
            return False
    return True


def crashes_are_right(picture, trace):
    """A picture of a failed assertion has its crash, and no other picture has a crash that violates one."""
    failure = re.fullmatch(r"is\w+ (\d+) fails\.", title_of(picture.root))
    crashes = [crash for crash in picture.crashes if crash.get("data-event")]
    return [crash.get("data-event") for crash in crashes] == ([failure[1]] if failure else []) and all(crash_is_right(crash, trace) for crash in crashes)


def story_is_right(picture, trace):
    """Without options: what explain's first entry tells. Of a failed assertion its slice; of stores that are lost the slices of those to
    one line, of a late one its slice; of a hint the events around it. Without an entry the events around the first flush or fence that has
    no effect, or else the first events."""
    explained = Explained(trace, [], {})
    if explained.told.entries:
        return entry_is_right(picture, explained, explained.told.entries[0])
    useless = (number for number in trace.numbers if trace.event(number)[0] in (*FENCES, *FLUSHES, "clflush") and not is_kept(trace, number))
    return picture.numbers == around(trace, next(useless, 0))


def around(trace, number):
    """The events around one, as many as a picture has room for."""
    first = max(0, min(number - TOLD // 2, len(trace.events) - TOLD)) + 1
    return list(trace.numbers)[first - 1 : first - 1 + TOLD]


def entry_is_right(picture, explained, entry):
    trace, number = explained.trace, entry.first
    if entry.subject == "failure":
        is_about = title_of(picture.root) == f"{trace.event(number)[0]} {number} fails."
        return is_about and picture.numbers == slice_of(trace, number) and is_all_told(picture)
    if entry.why == "never_persisted":
        line = explained.address(trace.line(number))
        groups = (group for group in explained.never_persisted() if group["cache_line"] == line)
        return any(lost_is_right(picture, trace, group) for group in groups)
    if entry.why == "late":
        is_about = title_of(picture.root) == f"Store {number} is saved late"
        return is_about and picture.numbers == sorted(store_slice_of(trace, number)) and is_all_told(picture)
    return picture.numbers == around(trace, number)


def is_all_told(picture):
    """It shows no more events than a picture of a slice has room for, and says that they are all."""
    return len(picture.numbers) <= TOLD and ", all that tell of it, " in picture.words() and "have no room" not in picture.words()


def lost_is_right(picture, trace, group):
    """A crash at the end, and the slices of the stores to the line that it loses."""
    end, first, line = len(trace.events), group["first"]["event"], int(group["cache_line"], 16) // trace.size
    stores = [store for store in trace.stores(line, end) if not trace.is_safe(store, end)]
    crash, = picture.crashes
    is_crash = crash.get("data-event") is None and int(crash.get("data-place")) == end and int(crash.get("data-lost")) == first
    words = f"Never persisted: {len(stores)} store{'s' if len(stores) > 1 else ''} to line {line * trace.size:#x}"
    wanted = sorted(set().union(*(store_slice_of(trace, store) for store in stores)))
    return is_crash and title_of(picture.root) == words and picture.numbers == wanted and is_all_told(picture)


def extent(text):
    """Where a text stands: its sides and its base."""
    kind = text.get("class", "").split()
    letters = sum(2 if unicodedata.east_asian_width(letter) in "WF" else 1 for letter in "".join(text.itertext()))
    long = letters * next((LETTER[name] for name in kind if name in LETTER), 6.7)
    x = int(text.get("x"))
    left = x - (long if "end" in kind else long / 2 if "mid" in kind else 0)
    return left, left + long, int(text.get("y"))


def is_on_page(picture):
    """No text and no shape reaches over the page, and the page is as small as is said."""
    width, height = int(picture.root.get("width")), int(picture.root.get("height"))
    for text in picture.root.iter(SVG + "text"):
        if text.get("x") is None or text.get("y") is None or "tiny" in text.get("class", ""):
            continue
        left, right, base = extent(text)
        if right > width or left < 0 or base > height:
            return False
    boxes = [box for box in picture.root.iter(SVG + "rect") if not box.get("x", "0").startswith("-")]
    return width <= WIDTH and height <= HEIGHT and all(int(box.get("x", 0)) + int(box.get("width", 0)) <= width for box in boxes)


def crash_is_apart(picture):
    """The crash has a line of its own, with room for the word beside it: no event and no dots stand there. Its line crosses no words of a
    column and ends below its name."""
    for crash in picture.crashes:
        line, name = crash.find(SVG + "line"), extent(crash.find(SVG + "text"))
        side, words = int(line.get("x1")), [extent(text) for event in picture.events for text in event.iter(SVG + "text") if text.get("x")]
        taken = [*picture.middle.values(), *(int(cut.get("x1")) for cut in of_class(picture.drawn, "line", "cut"))]
        if any(side - 2 <= other < side + 46 for other in taken):
            return False
        if any(left < side < right and base > int(line.get("y1")) for left, right, base in [name, *words]):
            return False
    return True


def rows_are_named(picture):
    """Each thread of the events has a row, and each line has its address."""
    names = {text.text for text in picture.drawn.iter(SVG + "text")}
    return {f"thread {event.get('data-thread')}" for event in picture.events} | {f"{line:#x}" for line in picture.lines} <= names


def legend_is_right(picture):
    """The legend has the signs that are in use, no others, and is no higher than they need."""
    legend, = picture.of_class("g", "legend")
    shown = {name for part in legend.iter() for name in part.get("class", "").split()} & SIGNS
    used = {name for part in picture.drawn.iter() for name in part.get("class", "").split()} & SIGNS
    heights = [int(sign.get("transform").split()[1].rstrip(")")) for sign in legend]
    lower = max(heights) - min(heights) if heights else 0
    return shown == used and lower <= 20 * ((len(heights) + 2) // 3 - 1) + 1 and int(picture.root.get("height")) - min(heights, default=0) <= lower + 20
