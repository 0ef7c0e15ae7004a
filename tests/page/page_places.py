"""The rows of a page, compared with the JSON of `explain`: causes, places, hints and overwritten stores, with their counts, in their order, and what is
told of each.

The traces are the examples, random ones with labels, one with a hint of each kind, and one with hints of call paths.
"""
import json
import pathlib
import random
import re

from called import rounds
from crowded import random_trace
from entries import Run
from machine import spelled, text_of
from page_machine import read_trace
from page_walk import examples

TRACES = 6
LABELS = ["a.c:1 put", "b.c:2 get < main a.c:9", "b.c:2 get < other c.c:7", "c.c:3 log", None]

# A word over two lines; a store that misses the flush of its line; a flush that is open at a store to another line; a table that is saved
# one fence after the pointer to it; a place that loses a part; one that saves stores late, but for one that waits for one fence; one where
# just one of two waits for one fence; two whose stores are overwritten, more of them by the same bytes; and a mark that another
# store comes after.
HINTED = """store 0 0x103c aaaaaaaa|split.c:1 put
store 0 0x1040 bbbbbbbb|split.c:1 put
clwb 0 0x1000|split.c:2 put
clwb 0 0x1040|split.c:2 put
sfence 0|split.c:3 put
store 0 0x2000 01|early.c:1 put
clwb 0 0x2000|early.c:2 put
store 0 0x2008 02|early.c:3 put
sfence 0|early.c:4 put
clwb 0 0x2000|early.c:5 put
sfence 0|early.c:6 put
store 0 0x3000 01|open.c:1 put
clwb 0 0x3000|open.c:2 put
store 0 0x3040 02|open.c:3 put
clwb 0 0x3040|open.c:4 put
sfence 0|open.c:5 put
store 0 0x4000 01|table.c:1 grow
store 0 0x4040 02|table.c:2 grow
clwb 0 0x4040|table.c:3 grow
sfence 0|table.c:4 grow
clwb 0 0x4000|table.c:5 grow
sfence 0|table.c:6 grow
store 0 0x5000 01|part.c:1 put
clwb 0 0x5000|part.c:2 put
sfence 0|part.c:3 put
store 0 0x5040 02|part.c:1 put
store 1 0x6000 01|late.c:1 put
store 1 0x6000 02|late.c:1 put
sfence 1|late.c:2 put
sfence 1|late.c:2 put
clwb 1 0x6000|late.c:3 put
sfence 1|late.c:4 put
store 1 0x6040 01|late.c:1 put
sfence 1|late.c:5 put
clwb 1 0x6040|late.c:6 put
sfence 1|late.c:7 put
store 2 0x7000 01|mixed.c:1 put
clwb 2 0x7000|mixed.c:2 put
sfence 2|mixed.c:3 put
store 2 0x7040 02|mixed.c:1 put
sfence 2|mixed.c:4 put
clwb 2 0x7040|mixed.c:5 put
sfence 2|mixed.c:6 put
store 3 0x8000 01|same.c:1 put
store 3 0x8000 01|same.c:1 put
store 3 0x8000 01|same.c:1 put
store 3 0x8040 01|other.c:1 put
store 3 0x8040 02|other.c:2 put
clwb 3 0x8000|other.c:3 put
clwb 3 0x8040|other.c:3 put
sfence 3|other.c:4 put
store 3 0x9030 01|short.c:1 put
store 3 0x9038 01|short.c:1 put
store 3 0x9040 01|short.c:1 put
clwb 3 0x9000|short.c:2 put
sfence 3|short.c:3 put
store 4 0xa000 01|mark.c:1 put
clwb 4 0xa000|mark.c:2 put
sfence 4|mark.c:3 put
store 4 0xa040 01|mark.c:4 put
store 4 0xa048 01|mark.c:4 put
clwb 4 0xa040|mark.c:5 put
sfence 4|mark.c:6 put
isOrderedBefore 4 0xa000 1 0xa040 1|mark.c:7 put
"""

EVENT = re.compile(r"\bevent (\d+)")
# What a crash keeps without a store, in the words of the chosen hint.
BEFORE = "[...document.querySelectorAll('#details dt')].filter((name) => name.textContent === 'before').map((name) => name.nextSibling.textContent)"

# The rows of a part of the list: how many, in words, and where.
ROWS = """[...document.querySelectorAll('#groups ul.PART button.group')].map((row) => {
  const [words, , where] = row.lastChild.childNodes;
  return [parseInt(row.firstChild.textContent.replaceAll(',', '')), words.textContent, where.textContent.replace(/^at /, '')];
})"""
TOLD = "['told', 'mend', 'details'].map((id) => document.getElementById(id).innerText)"


def rows(pages, part):
    return pages.browser.run(ROWS.replace("PART", part))


def wrong_causes(pages, told, _):
    """Failed assertions, by cause."""
    found = [count for count, _, _ in rows(pages, "failure")]
    causes = [entry["count"] for entry in told if entry["kind"] == "cause"]
    return "" if found == causes else f"{found}, and not {causes}"


def wrong_places(pages, told, _):
    """What is never persisted or late, by place."""
    found = [(where, *map(int, re.findall(r"\d+", words)[:3])) for _, words, where in rows(pages, "place")]
    listed = [entry for entry in told if entry["kind"] == "place" and entry["never_persisted"] + entry["late"]]
    listed = [(name_of(entry), *(entry[member] for member in ("never_persisted", "late", "in_time"))) for entry in listed]
    return "" if found == listed else f"{found}, and not {listed}"


def name_of(entry):
    return entry.get("path") or entry["label"] or f"thread {entry['thread']}"


def wrong_late(pages, told, run):
    """Each place that is late, as it is chosen: its count, and for how many fences its first store waited."""
    for place in (entry for entry in told if entry["kind"] == "place" and entry["late"]):
        number = place["first_late"]["event"]
        pages.browser.run(f"page.choose(page.findings.find('late', {number}))")
        headline, _, details = pages.browser.run(TOLD)
        members = pages.browser.run("[...lateMembers(page.trace, page.view.finding.entry)]")
        if f" {place['late']} store" not in headline or f"{run.waited(number)} fence" not in headline or f"event {number} (" not in details:
            return f"{place} is told as {headline}{details}"
        if len(members) != place["late"] or members[0] != number:
            return f"{place} has the members {members}"
    return ""


def left(told, hints):
    """The places, and then the paths, that are saved one fence late and have no other hint."""
    hinted = {(hint["label"], hint["thread"]) for hint in hints}
    for entry in told:
        if entry["kind"] in ("place", "path") and 0 < entry["left"] == entry["in_time"] and not entry["never_persisted"] + entry["late"]:
            label = entry["label"] and entry["label"].partition(" < ")[0]
            if (label, entry["thread"]) not in hinted:
                yield entry["left"], name_of(entry), entry["first_left"]["event"], entry["saved_before"] and entry["saved_before"]["store"]["event"]


def wrong_hints(pages, told, _):
    """Each hint as it is chosen by its row: count, place, first event, what a crash keeps without it, and that something is to do."""
    hints = [entry for entry in told if entry["kind"] == "hint"]
    wanted = [(hint["count"], name_of(hint), hint["first"]["event"], None) for hint in hints] + list(left(told, hints))
    found = rows(pages, "hint")
    if [(count, where) for count, _, where in found] != [(count, name) for count, name, *_ in wanted]:
        return f"{found}, and not {wanted}"
    for at, (count, name, first, kept) in enumerate(wanted):
        pages.browser.run(f"document.querySelectorAll('#groups ul.hint button.group')[{at}].click()")
        headline, mend, details = pages.browser.run(TOLD)
        if f" {count} " not in headline or name not in details or f"event {first} (" not in details or not mend.strip():
            return f"{headline} {details} {mend}, and not {wanted[at]}"
        if kept and str(kept) not in [event for row in pages.browser.run(BEFORE) for event in EVENT.findall(row)]:
            return f"{details}, and not what a crash keeps: {kept}"
    return ""


def wrong_overwritten(pages, told, _):
    """Overwritten stores by the place of the earlier one, those with most other bytes first."""
    groups = {}
    for entry in sorted((entry for entry in told if entry["kind"] == "overwritten"), key=lambda entry: (entry["same"] - entry["count"], -entry["count"])):
        label = entry["earlier"]["label"]
        groups.setdefault(label.partition(" < ")[0] if label else f"thread {entry['earlier']['thread']}", []).append(entry)
    total = lambda entries, member: sum(entry[member] for entry in entries)
    wanted = sorted(((total(own, "same") - total(own, "count"), -total(own, "count"), own[0]["earlier"]["event"]), place) for place, own in groups.items())
    wanted, found = [(-key[1], place) for key, place in wanted], [(count, where) for count, _, where in rows(pages, "overwritten")]
    return "" if found == wanted else f"{found}, and not {wanted}"


WRONG = {
    "causes": wrong_causes,
    "places": wrong_places,
    "late stores": wrong_late,
    "hints": wrong_hints,
    "overwritten stores": wrong_overwritten,
}


def traces(folder):
    """The traces, each with the options for it."""
    yield from ((trace.stem, trace, words) for trace, words in examples())
    choose = random.Random(52)
    for index in range(TRACES):
        head, trace = random_trace(choose)
        named = [(number, choose.choice(LABELS)) for number in trace.numbers]
        yield written(folder, f"random {index}", text_of([head, *map(spelled, trace.events)]).decode(), named)
    events, labels = zip(*rounds([(way, f"{way}.c") for way in ("right", "unfenced", "late") for _ in range(3)]))
    yield written(folder, "called", "\n".join(["pmtrace 1", *events, ""]), list(enumerate(labels, 1)))
    events, labels = zip(*(line.split("|") for line in HINTED.splitlines()))
    yield written(folder, "hinted", "\n".join(["pmtrace 1", *events, ""]), list(enumerate(labels, 1)))


def written(folder, name, trace, labels):
    files = [pathlib.Path(folder) / f"rows.{end}" for end in ("trace", "labels")]
    files[0].write_text(trace)
    files[1].write_text("".join(f"{number} {label}\n" for number, label in labels if label))
    return name, files[0], ["--labels", files[1]]


def agree(pages):
    for name, trace, words in traces(pages.folder):
        page, _ = pages.make(trace, *words, name="rows")
        told = [json.loads(line) for line in pages.explain("--json", "--limit", "1000", *words, file=trace).splitlines()]
        pages.open(page)
        run = Run(*read_trace(pathlib.Path(trace).read_bytes()), {})
        for what, wrong in WRONG.items():
            yield f"{what} of {name} are those of the JSON", wrong(pages, told, run)
        yield f"console of the rows of {name}", pages.faults(page)
    kinds = pages.browser.run("page.findings.groups.filter((g) => g.section === 'hint').map((g) => g.entry.hint)")
    yield "a hint of each kind was told", "" if set(kinds) == {"split_word", "stored_after_flush", "one_line_short", "open_at_store", "stored_after_mark", "one_fence_late"} else kinds
