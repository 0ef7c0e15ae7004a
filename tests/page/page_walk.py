"""Walks through the pages of the examples: each finding by keys and by mouse, the filters, the strip and the address."""
import json

from drawn_mends import wanted_marks
from page_files import KINDS, name_of, number_of
from page_machine import read_trace, wrong_failure
from program import TOP
from slices import Plain

# A trace whose findings are known by hand: an assertion of each kind fails, two stores are never persisted, a flush and a fence do nothing.
KNOWN = """pmtrace 1
store 0 0x1000 0102
store 1 0x1040 03
isPersist 0 0x1000 2
isOrderedBefore 1 0x1000 2 0x1040 1
clwb 0 0x1000
clwb 0 0x1000
sfence 0
sfence 1
isPersist 1 0x2000 8
store 1 0x1080 04
clwb 1 0x1080
"""
KNOWN_LABELS = "1 a.c:1 first\n3 a.c:3\n5 b.c:5\n6 b.c:5\n10 z.c:9\n"

# Each filter by its field, what is put into it, and the findings that are left, by kind and event.
FAILURES = {("failure", 3), ("failure", 4)}
NEVER = {("never_persisted", 2), ("never_persisted", 10)}
DROPPED = {("dropped", 5), ("dropped", 8), ("dropped", 11)}
UNWRITTEN = {("unwritten", 9)}
FILTERS = [
    ({}, FAILURES | NEVER | DROPPED | UNWRITTEN),
    ({"kind": "failure"}, FAILURES),
    ({"kind": "dropped"}, DROPPED),
    ({"thread": "1"}, {("failure", 4), ("dropped", 8), ("dropped", 11)} | NEVER | UNWRITTEN),
    ({"line": "0x1080"}, {("never_persisted", 10), ("dropped", 11)}),
    ({"line": "1050"}, {("failure", 4), ("never_persisted", 2)}),
    ({"range": "0x1001:1"}, FAILURES | {("dropped", 5)}),
    ({"range": "0x2007:1"}, UNWRITTEN),
    ({"range": "0x2008:1"}, set()),
    ({"text": "A.C:1"}, FAILURES),
    ({"text": "b.c"}, {("dropped", 5)}),
    ({"text": "clwb", "thread": "1"}, {("dropped", 11)}),
]


def entries_of(blocks):
    """What the page goes through: late stores are told by place, and places and paths that are saved one fence late are hints."""
    found = [entry for entry in blocks["explained"] if entry["kind"] in KINDS and entry["kind"] != "late"]
    hinted = {(entry["label"], entry["thread"]) for entry in found if entry["kind"] == "hint"}
    for place in (entry for entry in blocks["explained"] if entry["kind"] == "place"):
        if place["late"]:
            found.append({"kind": "late", "count": place["late"], "first": place["first_late"]})
        elif place["left"] and place["left"] == place["in_time"] and not place["never_persisted"] and (place["label"], place["thread"]) not in hinted:
            found.append({"kind": "hint", "hint": "one_fence_late", "count": place["left"], "first": place["first_left"]})
    for path in (entry for entry in blocks["explained"] if entry["kind"] == "path"):
        if (path["label"].partition(" < ")[0], None) not in hinted:
            found.append({"kind": "hint", "hint": "one_fence_late", "count": path["left"], "first": path["first_left"]})
    return found


def named(entry):
    return name_of(entry), number_of(entry)


def examples():
    for trace in sorted((TOP / "examples").glob("*.trace")):
        labels = trace.with_name(trace.name + ".labels")
        yield trace, ["--labels", labels] if labels.exists() else []


def expected_mend(entry):
    """Words that what mends an entry must have."""
    mend = entry.get("mend")
    if mend is None:
        return []
    if mend["mend"] == "fence":
        return [f"Fence by thread {mend['thread']} after event {mend['after']}"]
    if mend["mend"] == "flush_and_fence":
        return [f"Flush cache line {mend['cache_line']} after event {mend['after']}", "fence by the thread that flushes it"]
    return [f"Make the store of event {mend['store']}", f"before event {mend['before']}"]


def wrong_marks(mend, shown, trace):
    """What is wrong with the marks of what is missing: they stand between the events that the mend names."""
    wanted = wanted_marks(trace, mend)
    high = (mend["before"] or len(trace.events) + 1) if mend else 0
    low = high - 1 if mend and mend["mend"] == "store_first" else mend["after"] if mend else 0
    right = [(kind, thread) for kind, thread, after in shown["missing"] if low <= after < high] == wanted
    return "" if right and len(shown["missing"]) == len(wanted) else f"marks {shown['missing']} of {mend}"


def wrong_entry(entry, shown, size, events):
    """What is wrong with the entry as it is shown."""
    if wrong := wrong_marks(entry.get("mend"), shown, Plain(size, events)):
        return wrong
    if entry["kind"] == "failure":
        return wrong_failure(size, events, entry, shown)
    wanted = [entry["cache_line"]] if entry["kind"] == "never_persisted" else [f"event {number_of(entry)}"]
    if entry["kind"] in ("late", "hint", "overwritten"):
        wanted = [str(entry["count"])]
    missing = [word for word in wanted if word not in shown["headline"]]
    missing += [word for word in expected_mend(entry) if word not in shown["mend"]]
    return f"{missing} is missing: {shown['headline']}, {shown['mend']}" if missing else ""


def walk_by_keys(pages, page, trace, blocks):
    """From the first finding to the last by n, and back by p."""
    size, events = read_trace(trace.read_bytes())
    left = {named(entry): entry for entry in entries_of(blocks)}
    pages.open(page)
    seen, shown = [], pages.shown()
    while left:
        found = [entry for key, entry in left.items() if shown["headline"] and key == current(pages)]
        if not found:
            return f"{current(pages)} is shown, {sorted(left)} is left"
        wrong = wrong_entry(found[0], shown, size, events)
        if wrong:
            return f"{named(found[0])}: {wrong}"
        seen.append(named(left.pop(named(found[0]))))
        if left:
            shown = pages.press("n")
    if seen and not shown["atEnd"]:
        return "there is a finding behind the last one"
    for key in reversed(seen[:-1]):
        pages.browser.key("p")
        if current(pages) != key:
            return f"back from the last, {current(pages)} is shown and not {key}"
    return ""


def current(pages):
    """The finding that is chosen, by kind and event."""
    found = pages.browser.run("(() => { const f = page.view.finding; return f && [f.name, f.number]; })()")
    return found and tuple(found)


def walk_by_mouse(pages, page, trace, blocks):
    """The button of each cause, and from it the next members by their button: each finding is met once."""
    size, events = read_trace(trace.read_bytes())
    entries = {named(entry): entry for entry in entries_of(blocks)}
    pages.open(page)
    groups = pages.browser.run("[...document.querySelectorAll('#groups button.group')].map((b, at) => b.setAttribute('data-at', at) ?? at)")
    seen = []
    for at in groups:
        pages.browser.click(f"#groups button[data-at='{at}']")
        members = int(pages.shown()["finding"].split(" ")[2])
        for member in range(members):
            shown = pages.shown()
            if current(pages) not in entries or not shown["finding"].startswith(f"{member + 1} of {members} "):
                return f"{current(pages)} as {shown['finding']}"
            wrong = wrong_entry(entries[current(pages)], shown, size, events)
            if wrong:
                return f"{current(pages)}: {wrong}"
            seen.append(current(pages))
            if member + 1 < members:
                pages.browser.click("#next")
    # The lines of a place may be those of another one too.
    return "" if sorted(set(seen)) == sorted(entries) else f"met {sorted(seen)}, and not {sorted(entries)}"


def filtered(pages, fields):
    """The findings that are left by filters, as the buttons and n show them."""
    pages.browser.click("#filter-clear")
    pages.browser.run("new Promise((done) => setTimeout(done, 20))")
    for name, value in fields.items():
        if name in ("kind", "thread"):
            event = "s.dispatchEvent(new Event('input', {bubbles: true}))"
            pages.browser.run(f"(() => {{ const s = document.getElementById('filter-{name}'); s.value = {json.dumps(value)}; {event}; }})()")
        else:
            pages.browser.click(f"#filter-{name}")
            pages.browser.write_text(value)
            pages.browser.key("Escape")
    return left_by_filters(pages)


def left_by_filters(pages):
    return {tuple(found) for found in pages.browser.run("page.findings.shown.map((f) => [f.name, f.number])")}


def filtered_by_keys(pages, fields):
    """Puts in filters by keys alone: / leads to the first field, tab from each to the next."""
    pages.browser.click("#filter-clear")
    pages.browser.run("new Promise((done) => setTimeout(done, 20))")
    pages.browser.run("document.activeElement.blur()")
    pages.browser.key("/")
    for name in ("text", "kind", "thread", "line", "range"):
        wanted = fields.get(name, "")
        if name in ("kind", "thread"):
            for _ in range(8):
                if pages.browser.run("document.activeElement.value") == wanted:
                    break
                pages.browser.key("ArrowDown")
        elif wanted:
            pages.browser.write_text(wanted)
        if pages.browser.run("document.activeElement.id") != f"filter-{name}":
            return f"the tab key does not lead to filter-{name}"
        if name != "range":
            pages.browser.key("Tab")
    pages.browser.key("Escape")
    return ""


def stepped(pages, back, on):
    """The findings that are met from the first one to the last, by what leads back and what leads on."""
    for _ in range(20):
        if pages.browser.run("document.getElementById('previous').disabled"):
            break
        back()
    found = []
    for _ in range(20):
        if current(pages) in left_by_filters(pages):
            found.append(current(pages))
        if pages.browser.run("document.getElementById('next').disabled"):
            break
        on()
    return found


def filtered_walks(pages):
    """Each row of filters that names a thread or a range, walked from end to end by keys and by mouse."""
    for fields, wanted in FILTERS:
        if not {"thread", "range"} & set(fields):
            continue
        wrong = filtered_by_keys(pages, fields)
        found = stepped(pages, lambda: pages.browser.key("p"), lambda: pages.browser.key("n"))
        yield f"filter {fields} walked by keys", wrong or ("" if sorted(found) == sorted(wanted) else f"{found}, and not {sorted(wanted)}")
        filtered(pages, fields)
        groups = pages.browser.run("[...document.querySelectorAll('#groups button.group')].map((b) => [b.dataset.kind, b.dataset.number])")
        if groups:
            pages.browser.click(f"#groups button[data-kind='{groups[0][0]}'][data-number='{groups[0][1]}']")
        found = stepped(pages, lambda: pages.browser.click("#previous"), lambda: pages.browser.click("#next"))
        yield f"filter {fields} walked by mouse", "" if sorted(found) == sorted(wanted) else f"{found}, and not {sorted(wanted)}"


def known_trace(pages):
    """The file of the trace whose findings are known by hand."""
    trace = pages.folder / "known.trace"
    trace.write_text(KNOWN)
    return trace


def filters(pages):
    labels = pages.folder / "known.labels"
    labels.write_text(KNOWN_LABELS)
    page, _ = pages.make(known_trace(pages), "--labels", labels, name="known")
    pages.open(page)
    for fields, wanted in FILTERS:
        found = filtered(pages, fields)
        counted = int(pages.shown()["found"].split(" ")[0])
        yield f"filter {fields}", "" if found == wanted and counted == len(wanted) else f"{sorted(found)}, counted {counted}, and not {sorted(wanted)}"
    yield from filtered_walks(pages)
    filtered(pages, {"range": "12:1"})
    yield "a wrong range is told", "" if pages.browser.run("document.getElementById('filter-range').getAttribute('aria-invalid')") == "true" else "it is not"
    filtered(pages, {})
    pages.browser.key("/")
    pages.browser.write_text("z.c")
    yield "/ leads to the filter", "" if pages.browser.run("page.findings.shown.length") == 1 else pages.shown()["found"]
    yield "console of the filters", pages.faults(page)


def drag(pages, start, end):
    """Draws a frame on the strip, from one part of it to another."""
    pages.browser.run("document.getElementById('strip').scrollIntoView()")
    box = pages.browser.run("(({left, top, width, height}) => [left, top, width, height])(document.getElementById('strip').getBoundingClientRect())")
    y = box[1] + box[3] / 2
    pages.browser.mouse("mouseMoved", box[0] + box[2] * start, y, 0)
    pages.browser.mouse("mousePressed", box[0] + box[2] * start, y)
    for step in (0.3, 0.7, 1):
        pages.browser.mouse("mouseMoved", box[0] + box[2] * (start + (end - start) * step), y)
    pages.browser.mouse("mouseReleased", box[0] + box[2] * end, y)
    shown = pages.shown()
    return shown["from"], shown["to"]


def near(found, wanted, slack=3):
    return "" if all(abs(a - b) <= slack for a, b in zip(found, wanted)) else f"{found}, and not about {wanted}"


def strip(pages):
    page, blocks = pages.make(TOP / "examples/append_log.trace", name="strip")
    events = blocks["about"]["events"]
    pages.open(page)
    yield "a frame on the strip", near(drag(pages, 0.5, 0.6), (events * 0.5, events * 0.6))
    yield "a frame drawn leftwards", near(drag(pages, 0.3, 0.1), (events * 0.1, events * 0.3))
    shown = pages.shown()
    yield "the picture has the stretch", "" if shown["events"] == list(range(shown["from"], shown["to"] + 1)) else shown["events"]
    pages.browser.run("document.getElementById('strip').focus()")
    before, after = pages.shown(), pages.press("ArrowRight")
    yield "the right key moves the stretch", "" if after["from"] > before["from"] and after["to"] - after["from"] == before["to"] - before["from"] else after
    closer = pages.press("+")
    yield "+ comes closer", "" if closer["to"] - closer["from"] < after["to"] - after["from"] else closer
    last = pages.press("End")
    yield "End leads to the end", "" if last["to"] == events else last
    pages.browser.click("#whole")
    whole = pages.shown()
    yield "the whole trace is binned", "" if (whole["from"], whole["to"]) == (1, events) and not whole["events"] else whole
    pages.browser.run("document.getElementById('from').value = 7; document.getElementById('to').value = 9")
    pages.browser.run("document.getElementById('to').dispatchEvent(new Event('change', {bubbles: true}))")
    yield "fields of the stretch", "" if pages.shown()["events"] == [7, 8, 9] else pages.shown()
    pages.browser.run("document.getElementById('sheet').focus()")
    pages.slide(7)
    yield "the right key moves the crash", "" if pages.press("ArrowRight")["place"] == 8 else pages.shown()
    pages.browser.click("#sheet .event[data-event='9']")
    yield "a click on an event moves the crash", "" if pages.shown()["place"] == 9 else pages.shown()
    yield "console of the strip", pages.faults(page)


# Addresses, and what has to be shown: finding, place, stretch.
ADDRESSES = [
    ("#failure=4", ["failure", 4], 2, None),
    ("#failure=3", ["failure", 3], 3, None),
    ("#failure=4&place=7", ["failure", 4], 7, None),
    ("#never_persisted=10", ["never_persisted", 10], 11, None),
    ("#place=5", None, 5, None),
    ("#dropped=8&place=2&from=2&to=6", ["dropped", 8], 2, [2, 6]),
    ("#failure=999", ["failure", 3], 3, None),
    ("#place=99999999999", ["failure", 3], 3, None),
    ("#place=9999999", None, 11, None),
    ("#failure=%3Cscript%3E&from=x", ["failure", 3], 3, None),
    ("#from=3&to=1", None, 0, [3, 3]),
]


def addresses(pages):
    page, _ = pages.make(known_trace(pages), name="addresses")
    for at, finding, place, stretch in ADDRESSES:
        pages.open(page, at)
        shown = pages.shown()
        found = pages.browser.run("page.view.finding && [page.view.finding.kind, page.view.finding.number]")
        right = (found, shown["place"]) == (finding, place) and (stretch is None or [shown["from"], shown["to"]] == stretch)
        yield f"opened at {at}", "" if right else f"{found} at {shown['place']}, {shown['from']} to {shown['to']}"
        yield f"console at {at}", pages.faults(page)
    pages.open(page)
    pages.press("n")
    kept = pages.address()
    key = current(pages)
    pages.open(page, kept)
    yield "the address keeps the finding", "" if current(pages) == key else f"{kept} leads to {current(pages)}, and not {key}"
    pages.slide(1)
    kept = pages.address()
    yield "the address keeps the place", "" if kept.endswith("place=1") else kept
    pages.open(page, "#dropped=5")
    led = []
    for key in "NNP":
        pages.browser.key(key)
        led.append(current(pages))
    yield "N and P lead through the causes", "" if led == [("dropped", 8), ("dropped", 11), ("dropped", 8)] else led
    pages.browser.run("location.hash = '#failure=3'")
    yield "the page follows the address", "" if current(pages) == ("failure", 3) else str(current(pages))


def walks(pages, trace, words):
    """The page of an example, by keys and by mouse."""
    page, blocks = pages.make(trace, *words, name=trace.stem)
    yield f"{trace.stem} by keys", walk_by_keys(pages, page, trace, blocks)
    yield f"console of {trace.stem} by keys", pages.faults(page)
    yield f"{trace.stem} by mouse", walk_by_mouse(pages, page, trace, blocks)
    yield f"console of {trace.stem} by mouse", pages.faults(page)
