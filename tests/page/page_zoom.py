"""The wheel over the strip and the picture, and the keys that come closer: what stands at the pointer stays there, no end is passed, and the
wheel alone scrolls the page."""
from program import TOP

CTRL, SHIFT = 2, 8
NOTCH = 100

# Where a drawing stands, and how far the page is scrolled.
BOX = "(({left, top, width, height}) => [left, top, width, height])(document.getElementById('NAME').getBoundingClientRect())"


class Wheel:
    """The wheel at a point of a drawing, by its parts from left and top."""

    def __init__(self, pages, name, across, down=0.5):
        self.pages = pages
        left, top, width, height = pages.browser.run(BOX.replace("NAME", name))
        self.x, self.y = left + width * across, top + height * down

    def turn(self, by, modifiers=0):
        self.pages.browser.wheel(self.x, self.y, by, modifiers)
        return stretch(self.pages)


def stretch(pages):
    shown = pages.shown()
    return shown["from"], shown["to"]


def part_of(place, found):
    return (place - found[0] + 1) / (found[1] - found[0] + 1)


def over_the_strip(pages, events):
    pages.browser.click("#whole")
    wheel = Wheel(pages, "strip", 0.7)
    closer = wheel.turn(-NOTCH, CTRL)
    length = closer[1] - closer[0] + 1
    yield "Ctrl and the wheel come closer", "" if 0.5 * events < length < 0.8 * events else closer
    yield "the event at the pointer stays there", "" if abs(part_of(0.7 * events, closer) - 0.7) * length <= 2 else closer
    moved = wheel.turn(NOTCH, SHIFT)
    yield "Shift and the wheel move the stretch", "" if moved[0] > closer[0] and moved[1] - moved[0] == closer[1] - closer[0] else moved
    for way, end in ((NOTCH, 1), (-NOTCH, 0)):
        for _ in range(9):
            found = wheel.turn(4 * way, SHIFT)
        right = found[end] == (1, events)[end] and found[1] - found[0] == closer[1] - closer[0]
        yield f"{'last' if end else 'first'} events are reached, and no end is passed", "" if right else found
    for _ in range(20):
        found = wheel.turn(NOTCH, CTRL)
    yield "the whole trace is the widest", "" if found == (1, events) else found
    for _ in range(30):
        found = wheel.turn(-NOTCH, CTRL)
    yield "the closest has the event at the pointer", "" if found[1] - found[0] <= 5 and found[0] - 1 <= 0.7 * events <= found[1] else found


def over_the_picture(pages):
    pages.browser.run("page.stretch(100, 140)")
    wheel = Wheel(pages, "sheet", 0.6)
    at = f"page.sheet.anchorAt({wheel.x}).number"
    for by in (-NOTCH, -NOTCH, NOTCH, NOTCH):
        before, was = pages.browser.run(at), stretch(pages)
        found = wheel.turn(by, CTRL)
        after = pages.browser.run(at)
        yield f"a wheel by {by} over the picture", "" if abs(after - before) <= 1 and (found[1] - found[0] < was[1] - was[0]) == (by < 0) else f"{before} and {after}: {found}"
    last = pages.browser.run("page.trace.events")
    for _ in range(100):
        found = wheel.turn(4 * NOTCH, SHIFT)
        if found[1] == last:
            break
    yield "the wheel leads to the end of the trace", "" if found[1] == last else found


def alone(pages):
    """The wheel alone, over the drawings and beside them."""
    for name in ("strip", "sheet", "groups"):
        pages.browser.run("scrollTo(0, 0)")
        before = stretch(pages)
        after = Wheel(pages, name, 0.5, 0.3).turn(3 * NOTCH)
        pages.browser.run("new Promise((done) => setTimeout(done, 300))")
        scrolled = pages.browser.run("scrollY")
        yield f"the wheel alone over {name} scrolls the page", "" if scrolled > 0 and before == after else f"{scrolled}, {before}, {after}"
    pages.browser.run("scrollTo(0, 0)")


def by_keys(pages, events):
    pages.browser.run("document.activeElement.blur()")
    pages.press("0")
    yield "0 shows the whole trace", "" if stretch(pages) == (1, events) else stretch(pages)
    for key, less in (("+", True), ("+", True), ("-", False)):
        before = stretch(pages)
        pages.press(key)
        found = stretch(pages)
        yield f"{key} by keys", "" if (found[1] - found[0] < before[1] - before[0]) == less else f"{before}, {found}"
    told = pages.browser.run("document.querySelector('footer').innerText")
    missing = [word for word in ("Ctrl", "Shift", "wheel", "+", "−", "0") if word not in told]
    yield "the keys are told", missing


def cases(pages):
    page, blocks = pages.make(TOP / "examples/append_log.trace", name="zoom")
    events = blocks["about"]["events"]
    pages.browser.send("Emulation.setDeviceMetricsOverride", width=1400, height=500, deviceScaleFactor=1, mobile=False)
    pages.open(page)
    yield from over_the_strip(pages, events)
    yield from over_the_picture(pages)
    yield from alone(pages)
    yield from by_keys(pages, events)
    yield "console of the zoom", pages.faults(page)
    pages.browser.send("Emulation.setDeviceMetricsOverride", width=1400, height=1000, deviceScaleFactor=1, mobile=False)
