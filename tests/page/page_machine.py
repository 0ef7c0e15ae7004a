"""What pages say, compared with the machine: the columns, the crash of each failure, and what a place leaves."""
import json
import random

from crowded import random_trace
from explained import Explained
from machine import FENCES, FLUSHES, Trace, is_kept, least, spelled, text_of
from slices import Plain, slice_of

TRACES = 8
LETTERS = {"store": "S", "clwb": "C", "clflushopt": "O", "clflush": "F", "sfence": "s", "mfence": "m", "isPersist": "P", "isOrderedBefore": "B"}
REASONS = {"safe": "s", "unfenced": "u", "repeated": "r", "overtaken": "o", "empty": "e", "useless": "z"}
ENDS = (*FLUSHES, "clflush", *FENCES)
DIGITS = "0123456789abcdefghijklmnopqrstuvwxyzABCDEFGHIJKLMNOPQRSTUVWXYZ_$"


def read_trace(text):
    """The machine's trace of a text."""
    head, *lines = text.decode().splitlines()
    size = int(head.split(" ")[2]) if head.startswith("pmtrace 2") else 64
    events = []
    for line in lines:
        word, thread, *fields = line.split(" ")
        values = [int(field, 16) if at % 2 == 0 else int(field) for at, field in enumerate(fields)] if word != "store" else None
        events.append((word, int(thread), *(values if values is not None else (int(fields[0], 16), bytes.fromhex(fields[1])))))
    return size, events


def short(number):
    """A number in base 64; 0 has no digit."""
    return short(number // 64) + DIGITS[number % 64] if number else ""


def read_steps(column):
    """The numbers of a column of steps."""
    found, last = [], 0
    for field in column.split(",")[:-1]:
        way = 0
        for glyph in field.removeprefix("-"):
            way = way * 64 + DIGITS.index(glyph)
        last += -way if field.startswith("-") else way
        found.append(last)
    return found


def steps(numbers):
    """The steps from 0 through these numbers, as a column has them."""
    ways = [number - before for before, number in zip([0, *numbers], numbers)]
    return "".join(f"{'-' if way < 0 else ''}{short(abs(way))}," for way in ways)


def wrong_columns(trace, columns):
    """The first column that differs from what the machine says."""
    explained = Explained(trace, [], {})
    end = len(trace.events)
    safe_from = {
        number: next((short(place - number) for place in range(number, end + 1) if trace.is_safe(number, place)), "-")
        for number in trace.numbers
        if trace.event(number)[0] == "store"
    }
    placed = [event for event in trace.events if len(event) > 2]
    spanned = [event for event in placed if event[0] == "store" or event[0].startswith("is")]
    ordered = [event for event in trace.events if event[0] == "isOrderedBefore"]
    verdicts = {int(entry.split(" ")[1]): entry.split(" ")[2][0] for entry in explained.entries if entry.startswith(("persist ", "ordered "))}
    reasons = ["-" if is_kept(trace, number) else REASONS[explained.reason(number)["reason"]] for number in trace.numbers if trace.event(number)[0] in ENDS]
    wanted = {
        "op": "".join(LETTERS[event[0]] for event in trace.events),
        "safe": ",".join(safe_from.values()),
        "verdict": "".join(verdicts[number] for number in sorted(verdicts)),
        "dropped": "".join(reasons),
        "value": "".join(event[3].hex() for event in trace.events if event[0] == "store"),
    }
    numbers = {
        "thread": [event[1] for event in trace.events],
        "address": [event[2] for event in placed],
        "length": [len(event[3]) if event[0] == "store" else event[3] for event in spanned],
        "address2": [event[4] for event in ordered],
        "length2": [event[5] for event in ordered],
    }
    wanted |= {name: steps(values) for name, values in numbers.items()}
    return [name for name, text in wanted.items() if columns[name] != text]


def cells_of(shown_range):
    """The stores and values of a range, byte by byte, as the page shows them."""
    stores, values = [], []
    for _, length, store, text in shown_range["runs"]:
        stores += [store or None] * length
        values += [None if text[at : at + 2] == "--" else int(text[at : at + 2], 16) for at in range(0, len(text), 2)]
    return stores, values


def around(size, events, number):
    """The events that matter to an assertion: those of its lines, and the fences that their flushes wait for; with their numbers."""
    event = events[number - 1]
    lines = set()
    for at in range(2, len(event), 2):
        lines.update(range(event[at] // size, (event[at] + event[at + 1] - 1) // size + 1))
    chosen, waiting = [], set()
    for other in range(1, number):
        word, thread, *rest = events[other - 1]
        if word in FENCES:
            if thread in waiting:
                chosen.append(other)
            waiting.discard(thread)
        elif not word.startswith("is") and rest[0] // size in lines:
            chosen.append(other)
            if word in FLUSHES:
                waiting.add(thread)
    return [*chosen, number]


def crash_of(size, events, number):
    """The place of a failure's crash and what it leaves in the ranges, by the machine of the events that matter."""
    chosen = around(size, events, number)
    trace = Trace(size, [events[other - 1] for other in chosen])
    explained = Explained(trace, [], {})
    spans, place, _, lost, state = explained.violation(len(chosen))
    leaves = [explained.memory(span, place, state) for span in spans]
    stores = [[store and chosen[store - 1] for store in leave["stores"]] for leave in leaves]
    return chosen[place - 1], chosen[lost[0] - 1], list(zip(stores, (leave["values"] for leave in leaves)))


def lost_at(trace, entry):
    """The stores that a failure's crash loses, of the last ones to the range that is to be kept."""
    event, place, kept = trace.event(entry["event"]["event"]), entry["place"], entry["kept"]
    full = kept and trace.line(kept["store"]["event"])
    last = trace.last_stores(event[2], event[3], entry["event"]["event"])
    return {store for store in last if store > place or not trace.is_safe(store, place) and trace.line(store) != full}


def wrong_failure(size, events, entry, shown):
    """What is wrong with a failure as the page shows it. Of lines that the assertion does not name, what loses a store is the program's."""
    number = entry["event"]["event"]
    losing = [[line["cache_line"], line["persisted"], line["stores"]] for line in sorted(entry["lines"], key=lambda line: int(line["cache_line"], 16))]
    place, lost, leaves = crash_of(size, events, number)
    if f"assertion of event {number}" not in shown["headline"]:
        return f"the headline is {shown['headline']}"
    if shown["place"] != place or shown["drawn"] != str(place):
        return f"the crash is at {shown['place']}, drawn at {shown['drawn']}, and not at {place}"
    if f"of event {lost}" not in shown["crash"] or lost not in shown["events"]:
        return f"event {lost} is not shown as lost"
    trace = Plain(size, events)
    lost = lost_at(trace, entry) & set(shown["events"])
    if sorted(shown["lost"]) != sorted(lost):
        return f"{shown['lost']} are marked as lost, and not {lost}"
    wanted = slice_of(trace, number)
    if shown["events"] != wanted and (len(shown["events"]) != 24 or not set(shown["events"]) < set(wanted)):
        return f"the picture has the events {shown['events']}, and not {wanted}"
    if [row for row in shown["lines"] if row[1] < row[2]] != losing:
        return f"the lines are {shown['lines']}, and those that lose a store {losing}"
    found = [cells_of(own) for own in shown["rows"]]
    wanted = [(list(stores), list(values)) for stores, values in leaves]
    return "" if found == wanted else f"bytes {found}, and not {wanted}"


def wrong_place(trace, place, shown):
    """What is wrong with the crash at a place as the page shows it: counts of safe stores, and bytes of the safe ones."""
    state = tuple(sorted((line, least(trace, line, place)) for line in trace.lines(place)))
    if shown["place"] != place:
        return f"the place is {shown['place']}"
    if "of this failure" in shown["crash"]:
        return ""
    for line, safe, stores in shown["lines"]:
        number = int(line, 16) // trace.size
        if (safe, stores) != (dict(state).get(number, 0), len(trace.stores(number, place))):
            return f"line {line} has {safe} of {stores} safe"
    told = {int(line, 16) // trace.size for line, _, _ in shown["lines"]}
    missing = [line for line, count in state if count < len(trace.stores(line, place)) and line not in told]
    if missing:
        return f"lines {missing} are not told"
    unsafe = sum(count < len(trace.stores(line, place)) for line, count in state)
    counted = f"{unsafe} cache line{'' if unsafe == 1 else 's'} with stores" if unsafe else "Each store up to here is safe"
    if counted not in shown["crash"]:
        return f"{unsafe} lines are not safe: {shown['crash']}"
    explained = Explained(trace, [], {})
    for own in shown["rows"]:
        wanted = explained.memory((int(own["address"], 16), own["length"]), place, state)
        if cells_of(own) != (wanted["stores"], wanted["values"]):
            return f"bytes {cells_of(own)}, and not {wanted}"
    return ""


def small_traces():
    """Random traces with a failure each; the same ones each time."""
    choose = random.Random(31)
    found = []
    while len(found) < TRACES:
        head, trace = random_trace(choose)
        if len(trace.events) <= 16 and Explained(trace, [], {}).failing():
            found.append((head, trace))
    return found


def walk_places(pages, trace):
    """Each failure, and from it each place of the picture, by the slider."""
    for entry in Explained(trace, [], {}).failures():
        number = entry["event"]["event"]
        pages.open(pages.folder / "page.html", f"#failure={number}")
        shown = pages.shown()
        wrong = wrong_failure(trace.size, trace.events, entry, shown)
        if wrong:
            return f"failure {number}: {wrong}"
        pages.browser.click("#whole")
        for place in range(len(trace.events) + 1):
            wrong = wrong_place(trace, place, pages.slide(place))
            if wrong:
                return f"failure {number}, place {place}: {wrong}"
    return ""


def wrong_entries(shown, told):
    """What is wrong with a page's entries, by those of the JSON: it has all failures by event, and the JSON the first one of each cause."""
    members = sorted(event for entry in told if entry["kind"] == "cause" for event in entry["events"])
    others, failures = [entry for entry in shown if entry["kind"] != "failure"], [entry for entry in shown if entry["kind"] == "failure"]
    right = others == [entry for entry in told if entry["kind"] != "failure"]
    right = right and [entry["event"]["event"] for entry in failures] == members and all(entry in failures for entry in told if entry["kind"] == "failure")
    return "" if right else f"{shown}, and not {told}"


def cases(pages):
    file = pages.folder / "small.trace"
    for index, (head, trace) in enumerate(small_traces()):
        file.write_bytes(text_of([head, *map(spelled, trace.events)]))
        page, blocks = pages.make(file)
        wrong = wrong_columns(trace, blocks["columns"])
        told = [json.loads(line) for line in pages.explain("--json", "--limit", "1000", file=file).splitlines()]
        yield f"columns of small trace {index}", wrong and f"{wrong} of\n{file.read_text()}{blocks['columns']}"
        yield f"entries of small trace {index}", wrong_entries(blocks["explained"], told)
        wrong = walk_places(pages, trace)
        yield f"crashes of small trace {index}", wrong and f"{wrong}\n{file.read_text()}"
        yield f"console of small trace {index}", pages.faults(page)
