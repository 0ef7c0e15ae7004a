"""The pages that a program writes, their data, and how a test walks through them."""
import json
import re
import subprocess

BLOCKS = ("about", "columns", "explained", "labels", "sources")
KINDS = ("failure", "never_persisted", "late", "hint", "dropped", "overwritten", "unwritten")
NAMED_BY = {"never_persisted": "first", "late": "first", "hint": "first", "overwritten": "earlier"}

# Until the page can be used.
READY = """new Promise((done) => {
  const look = () => { if (document.documentElement.dataset.ready) done(true); else setTimeout(look, 5); };
  look();
})"""

# What the page shows, as its user sees it.
SHOWN = """(() => {
  const text = (id) => document.getElementById(id).textContent;
  const rows = [...document.querySelectorAll('#bytes .range')].map((box) => ({
    address: box.dataset.address, length: Number(box.dataset.length),
    runs: [...box.querySelectorAll('tbody tr')].map((row) => [row.dataset.address, Number(row.dataset.length), Number(row.dataset.store), row.dataset.bytes]),
  }));
  const lines = [...document.querySelectorAll('#lines tbody tr')].map((row) => [row.dataset.line, Number(row.dataset.safe), Number(row.dataset.stores)]);
  const events = [...document.querySelectorAll('#sheet .sheet-head .event')].map((event) => Number(event.dataset.event));
  const lost = [...document.querySelectorAll('#sheet path.lost')].map((mark) => Number(mark.dataset.store));
  const missing = [...document.querySelectorAll('#sheet .mark.missing')].map(({ dataset }) => [dataset.missing, Number(dataset.thread), Number(dataset.after)]);
  return {
    lost, missing, headline: document.querySelector('#told .headline')?.textContent ?? '', finding: text('finding-place'), mend: text('mend'), crash: text('crash-told'),
    found: text('found'), place: Number(document.getElementById('place').value), from: Number(document.getElementById('from').value),
    to: Number(document.getElementById('to').value), slider: Number(document.getElementById('slider').value), rows, lines, events,
    current: document.querySelector('#groups [aria-current]')?.dataset.number ?? null, atEnd: document.getElementById('next').disabled,
    drawn: document.querySelector('#sheet .crash-line[data-place]')?.dataset.place ?? null,
  };
})()"""


def number_of(entry):
    """The event by which a finding is named."""
    return entry[NAMED_BY.get(entry["kind"], "event")]["event"]


def name_of(entry):
    """The word before that number in the address."""
    return entry["hint"] if entry["kind"] == "hint" else entry["kind"]


def blocks_of(text):
    found = {}
    for name in BLOCKS:
        (block,) = re.findall(rf'<script type="application/json" id="{name}">(.*?)</script>', text, re.S)
        found[name] = json.loads(block)
    return found


class Pages:
    """Pages in a folder, and the browser that shows them."""

    def __init__(self, program, folder, browser):
        self.program = program
        self.folder = folder
        self.browser = browser
        browser.send("Emulation.setDeviceMetricsOverride", width=1400, height=1000, deviceScaleFactor=1, mobile=False)

    def explain(self, *words, file):
        done = subprocess.run([self.program, "explain", *words, file], capture_output=True, timeout=300)
        if done.returncode not in (0, 1):
            raise RuntimeError(f"explain {words} {file}: status {done.returncode}, {done.stderr.decode(errors='replace')}")
        return done.stdout

    def make(self, trace, *words, name="page"):
        """Writes the page of a trace; gives its file and its data."""
        page = self.folder / f"{name}.html"
        page.write_bytes(self.explain("--html", *words, file=trace))
        return page, blocks_of(page.read_text())

    def open(self, page, at="", has_script=True):
        """Opens a page, and waits until it can be used: of a long trace it first shows a still picture."""
        self.browser.open(page.as_uri() + at)
        if has_script:
            self.browser.run(READY)

    def shown(self):
        return self.browser.run(SHOWN)

    def faults(self, page):
        """What went wrong since the page was opened: faults on the console, or something fetched that is not the page itself."""
        told, asked = self.browser.faults()
        others = [url for url in asked if not url.startswith((page.as_uri(), "data:"))]
        return [*told, *others]

    def press(self, key):
        self.browser.key(key)
        return self.shown()

    def slide(self, place):
        """Moves the slider, as a browser does for the mouse and for the keys on it."""
        self.browser.run(
            f"(() => {{ const s = document.getElementById('slider'); s.value = '{place}'; s.dispatchEvent(new Event('input', {{bubbles: true}})); }})()"
        )
        return self.shown()

    def address(self):
        """The address, once it is written."""
        return self.browser.run("new Promise((done) => setTimeout(() => done(location.hash), 300))")
