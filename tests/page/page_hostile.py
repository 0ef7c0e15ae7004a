"""Pages of traces that are as long as may be and all of one kind: what is left out is told, and the page can be used."""
import itertools
import random

from page_large import EVENTS, FIRST, MOST_ELEMENTS, MOST_RUNS, RUNS, STEP, STEPS, slowness, taken, timed
from page_machine import read_steps

# The most bytes of a page, and of the texts of labels, each counted once.
MOST_PAGE, MOST_TEXTS = 25_000_000, 4_000_000
LONG = "x" * 10_230
# How many times longer than on the page of a trace as programs make them things may take on these.
MORE = 1.5


def failing():
    """One store that is never flushed, and claims of it."""
    yield "store 0 0x1000 01\n"
    yield from itertools.repeat("isPersist 0 0x1000 1\n")


def without_effect():
    """Flushes of lines without a store, and fences that complete nothing."""
    for number in itertools.count():
        yield f"clwb {number % 7} {0x1000 + 64 * (number % 997):#x}\n" if number % 3 else f"sfence {number % 7}\n"


def of_all_threads():
    """An event a thread, one thread after another; each fourth event of one is a claim, and some fences are forgotten."""
    for number in itertools.count():
        thread, turn = number % 256, number // 256
        at = 0x7F0000000000 + 64 * thread
        step = (f"store {thread} {at:#x} {number % 251:02x}\n", f"clwb {thread} {at:#x}\n", f"sfence {thread}\n", f"isPersist {thread} {at:#x} 1\n")
        yield step[turn % 4] if thread % 50 or turn % 4 != 2 else f"clwb {thread} {at:#x}\n"


def of_long_ranges():
    """Claims of 4,096 bytes each, in which a store may be lost."""
    for number in itertools.count():
        at = 0x7F0000000000 + 4096 * (number % 50)
        if number % 10 == 0:
            yield f"store 0 {at + 64 * (number // 10 % 64):#x} 01\n"
        else:
            yield f"isPersist 0 {at:#x} 4096\n" if number % 10 < 5 else f"isOrderedBefore 0 {at:#x} 4096 {at + 4096:#x} 4096\n"


def storing():
    for number in itertools.count():
        yield f"store 0 {0x7F0000000000 + 64 * (number % 1000):#x} {number:016x}\n"


def scattered():
    """Claims of ranges all over the memory, in threads without an order."""
    draw = random.Random(1).randrange
    while True:
        first, second = (f"{draw(2**48 - 4096):#x} {1 + draw(4096)}" for _ in range(2))
        yield f"isOrderedBefore {draw(256)} {first} {second}\n"


# Of each trace its events, its labels, and words of the notes that its page has to show.
CASES = {
    "all failures": (failing, None, ["Not on this page, by its limit"]),
    "all without effect": (without_effect, None, ["Not on this page, by its limit"]),
    "an event a thread of 256": (of_all_threads, None, ["Not on this page, by its limit"]),
    "ranges of 4,096 bytes": (of_long_ranges, None, ["Not on this page, by its limit"]),
    "claims all over the memory": (scattered, None, ["The ranges of assertions are left out for size"]),
    "labels of 10 KB": (storing, lambda: (f"{number} {number}{LONG}\n" for number in range(1, 6_001)), ["The labels of 2,000 events", "cut at 1,000 bytes"]),
    "a label an event": (storing, lambda: (f"{number} place{number}.c:{number}\n" for number in range(1, EVENTS + 1)), ["are left out for size"]),
}


def written(file, lines):
    with file.open("w") as out:
        out.writelines(lines)
    return file


def made(pages, name):
    """The page of a case and its data."""
    events, labels, _ = CASES[name]
    trace = written(pages.folder / "hostile.trace", itertools.chain(["pmtrace 1\n"], itertools.islice(events(), EVENTS)))
    words = [] if labels is None else ["--labels", written(pages.folder / "hostile.labels", labels())]
    found = pages.make(trace, *words, name="hostile")
    trace.unlink()
    return found


def wrong_size(size, blocks):
    """What is wrong with a page of so many bytes: it is too large, or something is left out though there is room for it."""
    columns, about = blocks["columns"], blocks["about"]
    if about["events"] != EVENTS:
        return f"{about['events']} events"
    if size > MOST_PAGE:
        return f"{size} bytes"
    stored = 2 * sum(stored_lengths(columns)) if about["ranges"] else MOST_PAGE
    # It was judged with 'false' in place of 'true' for the ranges.
    if not about["values"] and size + stored + 1 <= MOST_PAGE:
        return f"{size} bytes, and {stored} of stores are left out"
    texts = sum(len(text.encode()) for text in blocks["labels"]["texts"])
    return "" if texts <= MOST_TEXTS + 3 else f"{texts} bytes of labels"


def stored_lengths(columns):
    """The lengths of the stores, of a page that has the ranges of assertions."""
    return [length for length, op in zip(read_steps(columns["length"]), (op for op in columns["op"] if op in "SPB")) if op == "S"]


def opened(pages, page):
    """How many milliseconds the page's thread takes until the page can be used."""
    pages.open(page)
    return 1000 * taken(pages.browser)


def least(browser, limit, measure, runs):
    """The least of so many measures, and of more where all are over the limit, since other programs run beside this one; and the limit."""
    measures, most = [measure() for _ in range(runs)], limit
    while min(measures) > most and len(measures) < MOST_RUNS:
        most = max(most, limit * slowness(browser))
        if min(measures) > most:
            measures.append(measure())
    return min(measures), most


def cases(pages, name):
    """What is asked of the page of a case, and what is wrong about it."""
    _, _, notes = CASES[name]
    page, blocks = made(pages, name)
    size = page.stat().st_size
    yield f"{name}: sizes", wrong_size(size, blocks)
    pages.browser.send("Performance.enable", timeDomain="threadTicks")
    first, most = least(pages.browser, MORE * FIRST, lambda: opened(pages, page), RUNS)
    told = pages.browser.run("[...document.querySelectorAll('#summary .note')].map((note) => note.textContent).join('; ')")
    yield f"{name}: notes", [f"{note} is not told: {told}" for note in notes if note not in told]
    yield f"{name}: first picture", "" if first <= most else f"{first:.0f} ms"
    steps = {step: least(pages.browser, MORE * STEP, lambda: timed(pages.browser, script), 2) for step, script in STEPS.items()}
    pages.browser.send("Performance.disable")
    yield f"{name}: steps", [f"{step} {time:.0f} ms" for step, (time, most) in steps.items() if time > most]
    elements = pages.browser.run("document.querySelectorAll('*').length")
    yield f"{name}: elements", "" if elements <= MOST_ELEMENTS else f"{elements}"
    yield f"{name}: console", pages.faults(page)
    page.unlink()
    print(f"{name}: {size / 1e6:.1f} MB, first picture {first:.0f} ms of its thread, the slowest step {max(steps.values())[0]:.0f} ms; {told}")
