"""How pages look and what they do with hostile texts: labels and names, without script, dark and print, for the keyboard and for readers."""
import json
import re

from program import TOP

# Labels that would break a page that takes them for anything but text.
HOSTILE = [
    '"lines":[7],"ranges":[{"address":"0x1","length":1,"stores":[1]}],"whole_lines":1',
    "</script><script>window.broken = 1</script>",
    "<img src=x onerror='window.broken = 1'>",
    "\"'><svg onload=window.broken=1>&lt;b&gt;",
    "--><!--<b>\\u003c</b>",
    "\u202egnp.exe\u202c \u0645\u0631\u062d\u0628\u0627 \u05e9\u05dc\u05d5\u05dd",
    "x" * 10240,
    "__proto__",
    "${window.broken = 1} {{broken}} %s %00",
    "<!--put:script-->",
]
NAME = "a\"'<b>&\u202eecart.&lt;.trace"
SPAN = "pmtrace 1\n" + "".join(f"store 0 {0x1000 + 64 * at:#x} 01\n" for at in range(len(HOSTILE))) + "isPersist 0 0x1000 1\n"

# Pairs of colours that stand on each other as text; 4.5 is what WCAG 2 asks for at level AA.
PAIRS = [("--ink", "--paper"), ("--soft", "--paper"), ("--bad", "--paper"), ("--good", "--paper"), ("--ink", "--chosen"), ("--soft", "--chosen"), ("--ink", "--band")]
PAIRS += [("--bad", "--band"), ("--paper", "--bad"), ("--paper", "--safe-ink"), ("--bad", "--chosen"), ("--pending-ink", "--paper"), ("--focus", "--paper")]
CONTRAST = """(() => {
  const style = getComputedStyle(document.documentElement);
  const part = (value) => (value <= 0.03928 ? value / 12.92 : ((value + 0.055) / 1.055) ** 2.4);
  const light = (name) => {
    const hex = style.getPropertyValue(name).trim();
    const [r, g, b] = [1, 3, 5].map((at) => part(parseInt(hex.substr(at, 2), 16) / 255));
    return 0.2126 * r + 0.7152 * g + 0.0722 * b;
  };
  return PAIRS.map(([ink, paper]) => [ink, paper, (Math.max(light(ink), light(paper)) + 0.05) / (Math.min(light(ink), light(paper)) + 0.05)]);
})()"""

# What is cut at the right: the page itself, a column of it, or a table in the box of the crash.
CUT = """(() => {
  const boxes = [document.documentElement, ...document.querySelectorAll('#causes, main, #finding, .halves > div')];
  return boxes.filter((box) => box.scrollWidth > box.clientWidth + 1).map((box) => `${box.id || box.className || box.tagName} ${box.scrollWidth} of ${box.clientWidth}`);
})()"""

# Elements that reach out of the page to the right, but for those in boxes that scroll by themselves.
TOO_WIDE = "document.documentElement.scrollWidth > document.documentElement.clientWidth + 1"
NAMELESS = ("button", "textbox", "searchbox", "combobox", "slider", "spinbutton", "checkbox", "link")
LANDMARKS = {"banner", "navigation", "main", "complementary", "contentinfo", "search"}


def hostile(pages):
    trace, labels = pages.folder / NAME, pages.folder / "hostile.labels"
    trace.write_text(SPAN)
    labels.write_text("".join(f"{number} {text}\n" for number, text in enumerate(HOSTILE, 1)), encoding="utf-8")
    page, blocks = pages.make(trace, "--labels", labels, name="hostile")
    pages.open(page)
    told = []
    for _ in range(2 * len(HOSTILE)):
        told += pages.browser.run("[...document.querySelectorAll('bdi')].map((box) => box.getAttribute('title') ?? box.textContent)")
        if pages.press("n")["atEnd"]:
            break
    pages.browser.click("#whole")
    pages.browser.run("document.getElementById('list').open = true")
    pages.browser.run("new Promise((done) => setTimeout(done, 50))")
    told += pages.browser.run("[...document.querySelectorAll('bdi')].map((box) => box.textContent)")
    missing = [text for text in HOSTILE if text not in told and len(text) < 200]
    yield "hostile labels are told as they are", f"{missing} is not among them" if missing else ""
    long = [text for text in told if text.startswith("…xxx") or text.startswith("xxx")]
    yield "a long label is cut", "" if long and max(map(len, long)) <= 2000 else f"{list(map(len, long))}"
    pages.open(page, f"#failure={len(HOSTILE) + 1}")
    rows = pages.shown()["rows"]
    yield "bytes of a failure with a hostile label", "" if [row["runs"] for row in rows] == [[["0x1000", 1, 0, "--"]]] else rows
    yield "no script of a label has run", "" if pages.browser.run("window.broken ?? null") is None else "one has"
    made = pages.browser.run("document.querySelectorAll('img, iframe, object, body script:not([type])').length")
    yield "no element of a label is made", "" if made == 1 else f"{made} scripts and images, and not 1"
    named = pages.browser.run("document.querySelector('#title bdi').textContent")
    yield "the name of a file is told as it is", "" if named.endswith(NAME) and blocks["about"]["name"].endswith(NAME) else named
    yield "a hostile page is not too wide", "" if not pages.browser.run(TOO_WIDE) else "it is"
    yield "console of the hostile page", pages.faults(page)


# How each element of a picture looks.
LOOKS = """(() => [...document.querySelector(PICTURE).querySelectorAll('*')].map((element) => {
  const { fill, stroke, strokeWidth, strokeDasharray, fontSize, fontWeight, opacity } = getComputedStyle(element);
  return [element.tagName, element.getAttribute('class'), fill, stroke, strokeWidth, strokeDasharray, fontSize, fontWeight, opacity].join(' ');
}))()"""


def still_picture(pages):
    """The picture on a page without script looks as it does by itself: no rule of the page reaches it."""
    page, _ = pages.make(TOP / "examples/mark_too_early.trace", name="still")
    alone = pages.folder / "still.svg"
    text = page.read_text()
    start = text.index("<svg xmlns")
    alone.write_text(text[start : text.index("</svg>", start) + len("</svg>")])
    pages.browser.send("Emulation.setScriptExecutionDisabled", value=True)
    try:
        pages.open(page, has_script=False)
        found = pages.browser.run(LOOKS.replace("PICTURE", "'#still svg'"))
        pages.open(alone, has_script=False)
        wanted = pages.browser.run(LOOKS.replace("PICTURE", "'svg'"))
    finally:
        pages.browser.send("Emulation.setScriptExecutionDisabled", value=False)
    wrong = [pair for pair in zip(found, wanted) if pair[0] != pair[1]]
    yield "the still picture looks as by itself", wrong[:3] if len(found) == len(wanted) > 50 else f"{len(found)} elements, and not {len(wanted)}"


def without_script(pages):
    page, _ = pages.make(TOP / "examples/mark_too_early.trace", name="plain")
    pages.browser.send("Emulation.setScriptExecutionDisabled", value=True)
    try:
        pages.open(page, has_script=False)
        found = pages.browser.run(
            "({text: document.querySelector('#still pre')?.offsetHeight ?? 0, picture: document.querySelector('#still svg')?.getBoundingClientRect().height ?? 0,"
            " page: document.getElementById('page').offsetHeight})"
        )
    finally:
        pages.browser.send("Emulation.setScriptExecutionDisabled", value=False)
    yield "text and picture without script", "" if found["text"] > 0 and found["picture"] > 100 and found["page"] == 0 else found
    pages.open(page)
    yield "they go where a script runs", "" if pages.browser.run("document.getElementById('still') === null") else "they are still there"


def colours(pages):
    page, _ = pages.make(TOP / "examples/linked_list.trace", name="colours")
    papers = set()
    for media, scheme in (("screen", "light"), ("screen", "dark"), ("print", "dark")):
        pages.browser.send("Emulation.setEmulatedMedia", media=media, features=[{"name": "prefers-color-scheme", "value": scheme}])
        pages.open(page)
        weak = [(*pair[:2], round(pair[2], 2)) for pair in pages.browser.run(CONTRAST.replace("PAIRS", json.dumps(PAIRS))) if pair[2] < (3 if pair[0] == "--focus" else 4.5)]
        yield f"contrast in {media}, {scheme}", weak
        papers.add((media, pages.browser.run("getComputedStyle(document.body).backgroundColor")))
    yield "dark is dark, and print is white", "" if papers == {("screen", "rgb(255, 255, 255)"), ("screen", "rgb(20, 24, 29)"), ("print", "rgb(255, 255, 255)")} else papers
    hidden = pages.browser.run("[...document.querySelectorAll('.tools, #causes')].every((e) => e.offsetHeight === 0) && document.getElementById('finding').offsetHeight > 0")
    pages.browser.send("Emulation.setDeviceMetricsOverride", width=1040, height=700, deviceScaleFactor=1, mobile=False)
    yield "a printed page holds the picture", "" if not pages.browser.run(TOO_WIDE) else "it does not"
    yield "print leaves out what is for choosing", "" if hidden else "it does not"
    pages.browser.send("Emulation.setEmulatedMedia", media="", features=[])
    for width in (360, 700, 1100, 1900):
        pages.browser.send("Emulation.setDeviceMetricsOverride", width=width, height=900, deviceScaleFactor=1, mobile=False)
        pages.open(page)
        yield f"{width} pixels are enough", "" if not pages.browser.run(TOO_WIDE) else "they are not"
    pages.browser.send("Emulation.setDeviceMetricsOverride", width=1400, height=1000, deviceScaleFactor=1, mobile=False)


def widths(pages):
    """At each width nothing is cut, with labels and without, and where addresses are as long as those of a process."""
    labels = ["--labels", TOP / "examples/undo_log.trace.labels"]
    high = pages.folder / "high.trace"
    high.write_text(re.sub("0x[0-9a-f]+", lambda found: hex(int(found[0], 16) + 0x7F1234560000), (TOP / "examples/append_log.trace").read_text()))
    for name, trace, words in (("undo_log", TOP / "examples/undo_log.trace", labels), ("append_log at high addresses", high, [])):
        page, _ = pages.make(trace, *words, name="widths")
        for width in (1160, 1280, 1400, 1640, 1900):
            pages.browser.send("Emulation.setDeviceMetricsOverride", width=width, height=900, deviceScaleFactor=1, mobile=False)
            pages.open(page)
            cut, number = [], 0
            while not cut and number < 12 and not pages.shown()["atEnd"]:
                cut, number = pages.browser.run(CUT), number + 1
                pages.press("n")
            yield f"no column of {name} is cut at {width} pixels", f"finding {number}: {cut}" if cut else ""
    pages.browser.send("Emulation.setDeviceMetricsOverride", width=1400, height=1000, deviceScaleFactor=1, mobile=False)


# What of the chosen finding is not in sight, the heights of the rows with the strip and with the signs, and the words in the picture that
# stand under a tag or a tick.
SIGHT = """(() => {
  const box = (name) => document.querySelector(name).getBoundingClientRect();
  const out = ['#told .headline', '#mend', '#event', '#sheet', '#signs'].filter((name) => {
    const { top, bottom, left, right, height } = box(name);
    return height === 0 || top < 0 || bottom > innerHeight || left < 0 || right > innerWidth;
  });
  const boxes = (name) => [...document.querySelectorAll(`#sheet ${name}`)].map((element) => element.getBoundingClientRect());
  const covers = [...boxes('rect.tag'), ...boxes('.tickmark')];
  const words = [...document.querySelectorAll('#sheet text.halo')].filter((text) => getComputedStyle(text).visibility !== 'hidden');
  const covered = words.filter((text) => {
    const own = text.getBoundingClientRect();
    return covers.some((other) => other.left < own.right - 1 && own.left + 1 < other.right && other.top < own.bottom - 2 && own.top + 2 < other.bottom);
  });
  return [out, box('#trace').height, box('#signs').height, covered.map((text) => text.textContent)];
})()"""


def in_sight(pages):
    """The finding, its picture and what mends it are in sight without scrolling, under a strip of one row."""
    for name, labels in (("linked_list", []), ("mark_too_early", []), ("redo", ["--labels", TOP / "examples/redo.trace.labels"])):
        page, _ = pages.make(TOP / f"examples/{name}.trace", *labels, name="sight")
        for width, height in ((1000, 700), (1400, 900)):
            pages.browser.send("Emulation.setDeviceMetricsOverride", width=width, height=height, deviceScaleFactor=1, mobile=False)
            pages.open(page)
            hidden, strip, signs, covered = pages.browser.run(SIGHT)
            yield f"{name} in sight at {width} x {height}", hidden
            yield f"the strip of {name} at {width} x {height}", "" if strip < 60 else f"{strip} pixels"
            yield f"the signs of {name} at {width} x {height} are a row", "" if 10 < signs < 24 else f"{signs} pixels"
            yield f"no words of {name} at {width} x {height} are covered", covered
    pages.browser.send("Emulation.setDeviceMetricsOverride", width=1400, height=1000, deviceScaleFactor=1, mobile=False)


def reading(pages):
    page, _ = pages.make(TOP / "examples/linked_list.trace", name="reading")
    pages.open(page)
    nodes = [node for node in pages.browser.send("Accessibility.getFullAXTree")["nodes"] if not node.get("ignored")]
    roles = {node["role"]["value"] for node in nodes}
    yield "landmarks", sorted(LANDMARKS - roles)
    yield "names of what can be used", [node["role"]["value"] for node in nodes if node["role"]["value"] in NAMELESS and not node.get("name", {}).get("value", "").strip()]
    ids = pages.browser.run("(() => { const all = [...document.querySelectorAll('[id]')].map((e) => e.id); return all.filter((id, at) => all.indexOf(id) !== at); })()")
    yield "no id stands twice", ids
    seen, order = set(), []
    for _ in range(60):
        pages.browser.key("Tab")
        found = pages.browser.run("(({id, className, tagName}) => [id || `${tagName}.${className}`, getComputedStyle(document.activeElement).outlineStyle])(document.activeElement)")
        order.append(found[0])
        if found[1] == "none":
            seen.add(found[0])
    yield "focus is seen", sorted(name for name in seen if not name.startswith("BODY"))
    wanted = {"strip", "filter-text", "next", "slider", "sheet", "BUTTON.group", "BUTTON.fold"}
    yield "all is reached by the tab key", sorted(wanted - set(order))


def fetching(pages):
    page, _ = pages.make(TOP / "examples/one_persist.trace", name="fetching")
    pages.open(page)
    yield "a page without findings", "" if "0 findings" in pages.shown()["found"] and not pages.faults(page) else pages.shown()
    refused = pages.browser.run("fetch('http://127.0.0.1:9/').then(() => 'fetched', () => 'refused')")
    told = json.dumps(pages.faults(page))
    yield "the policy lets nothing be fetched", "" if refused == "refused" and "Content Security Policy" in told else f"{refused}: {told}"
    empty = pages.folder / "empty.trace"
    empty.write_text("pmtrace 1\n")
    page, _ = pages.make(empty, name="empty")
    pages.open(page)
    pages.press("n")
    pages.browser.click("#whole")
    yield "a trace without events", pages.faults(page) or ("" if pages.shown()["place"] == 0 else pages.shown())


PARTS = (hostile, without_script, still_picture, colours, widths, in_sight, reading, fetching)
