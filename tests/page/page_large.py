"""The page of a trace of a million events: how long the first picture and each step take, and how much is drawn."""
import time

EVENTS = 1_000_000
# In milliseconds, on a machine where Python counts to five million in 0.35 seconds, and the page's thread does WORK, which takes memory as
# much as the processor, in 130 milliseconds; on a slower one so much longer.
FIRST, STEP = 1500, 100
COUNTED, COUNT = 0.35, 5_000_000
WORKED = 130
WORK = (
    "(() => { const all = []; for (let k = 0; k < 100000; k += 1) all.push({ key: `${(k * 7919) % 100003}`, value: [k] });"
    " all.sort((a, b) => (a.key < b.key ? -1 : 1)); return JSON.stringify(all).length; })()"
)
RUNS, MOST_RUNS = 3, 9
MOST_ELEMENTS = 20_000

# Each step as its user makes it, with the layout that follows.
STEPS = {
    "the next finding": "document.getElementById('next').click()",
    "the whole trace": "document.getElementById('whole').click()",
    "half of it": "document.getElementById('closer').click()",
    "a later stretch": "document.getElementById('later').click()",
    "the next place": "document.getElementById('on').click()",
    "a place far off": "(() => { const f = document.getElementById('place'); f.value = 700123; f.dispatchEvent(new Event('change', {bubbles: true})); })()",
    "a filter": "(() => { const f = document.getElementById('filter-text'); f.value = 'event 9'; f.dispatchEvent(new Event('input', {bubbles: true})); })()",
    "no filter": "(() => { const f = document.getElementById('filter-text'); f.value = ''; f.dispatchEvent(new Event('input', {bubbles: true})); })()",
    "the last cause": "[...document.querySelectorAll('#groups button.group')].at(-1).click()",
}


def slowness(browser):
    """How many times longer than on the machine of the limits things take here, at least 1."""
    start, number = time.process_time(), 0
    while number < COUNT:
        number += 1
    return max(1, (time.process_time() - start) / COUNTED, timed(browser, WORK) / WORKED)


def events():
    """Seven threads store records to 50,000 lines; some flushes and fences are forgotten, some are one too many, and there are claims."""
    value = 0
    while True:
        value += 1
        thread, at = value % 7, 0x7F0000000000 + 64 * (value * 37 % 50000)
        for word in range(4):
            yield f"store {thread} {at + 8 * word:#x} {value * 2654435761 % 2**64:016x}\n"
        if value % 50:
            yield f"clwb {thread} {at:#x}\n"
        if value % 70:
            yield f"sfence {thread}\n"
        if value % 11 == 0:
            yield f"clwb {(value + 1) % 7} {at:#x}\n"
        if value % 20 == 0:
            yield f"isPersist {thread} {at:#x} 32\n"
        if value % 400 == 0:
            yield f"isOrderedBefore {thread} {at:#x} 32 {at - 64 * 37:#x} 512\n"


def write(file):
    coming = events()
    with file.open("w") as out:
        out.write("pmtrace 1\n")
        out.writelines(next(coming) for _ in range(EVENTS))


# When the browser first painted something that is seen, in milliseconds by the clock since it began with the page.
PAINTED = """new Promise((done) => {
  const look = (list) => { for (const entry of list.getEntries()) if (entry.name === 'first-contentful-paint') done(entry.startTime); };
  new PerformanceObserver(look).observe({ type: 'paint', buffered: true });
})"""


def taken(browser):
    """How many seconds of processor time the page's own thread has used, for script, style, layout and the rest."""
    return next(metric["value"] for metric in browser.send("Performance.getMetrics")["metrics"] if metric["name"] == "TaskDuration")


def timed(browser, script):
    start = taken(browser)
    browser.run(f"{script}; document.body.getBoundingClientRect().height")
    return 1000 * (taken(browser) - start)


class Walks:
    """The times of some walks through a page, in milliseconds, of which the least count."""

    def __init__(self, pages, page):
        self.pages, self.page = pages, page
        self.first, self.seen, self.painted, self.steps, self.slow = [], [], [], {}, 1

    def walk(self):
        browser = self.pages.browser
        self.pages.open(self.page)
        self.first.append(1000 * taken(browser))
        self.seen.append(int(browser.run("document.documentElement.dataset.ready")))
        self.painted.append(int(browser.run(PAINTED)))
        for name, script in STEPS.items():
            self.steps.setdefault(name, []).append(timed(browser, script))
        self.slow = max(self.slow, slowness(browser))

    def late(self):
        """What is not there in time, each with what is told then; nothing where it is."""
        first, painted, seen = min(self.first), min(self.painted), min(self.seen)
        yield "a picture of a million events that can be walked", "" if first <= FIRST * self.slow else f"{first:.0f} ms"
        yield "a still picture is seen long before it", "" if painted <= seen / 2 else f"after {painted} ms, and the other after {seen}"
        for name, times in self.steps.items():
            yield f"{name} among a million events", "" if min(times) <= STEP * self.slow else f"{min(times):.0f} ms"

    def told(self):
        times = ", ".join(f"{name} {min(times):.0f} ms" for name, times in self.steps.items())
        return f"still picture {min(self.painted)} ms by the clock, the one to walk {min(self.seen)} ms, {min(self.first):.0f} ms of its thread; {times}"


def cases(pages):
    trace = pages.folder / "large.trace"
    write(trace)
    page, blocks = pages.make(trace, name="large")
    trace.unlink()
    # Other programs run beside this one, so what is limited is the time of the page's thread, and the best of some runs, of more where
    # a limit is passed.
    pages.browser.send("Performance.enable", timeDomain="threadTicks")
    walks = Walks(pages, page)
    for run in range(MOST_RUNS):
        if run < RUNS or any(wrong for _, wrong in walks.late()):
            walks.walk()
    pages.browser.send("Performance.disable")
    yield "events of the large trace", "" if blocks["about"]["events"] == EVENTS else blocks["about"]
    yield from walks.late()
    elements = pages.browser.run("document.querySelectorAll('*').length")
    yield "elements of the page of a million events", "" if elements <= MOST_ELEMENTS else f"{elements}"
    yield "console of the page of a million events", pages.faults(page)
    page.unlink()
    print(f"a million events: {walks.told()}")
