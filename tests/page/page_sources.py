"""The source lines of a page: which are read below the folder of --source, and which are not."""
import os
import subprocess

TRACE = b"pmtrace 1\n" + b"".join(b"store 0 0x%x 01\n" % (0x1000 + 64 * at) for at in range(7))

# Labels of events 1 to 7, as a hostile file may have them.
LABELS = ("near.c:8 < caller.c:2", "../outside.c:1", "/etc/passwd:1", "link.c:1", "binary.c:1", "gone.c:1", "near.c:99")


# What is shown of the sources once it is written: a browser tells later that they were opened, so there are thirty seconds for it.
SHOWN = """new Promise((done) => {
  const look = (left) => {
    const text = document.getElementById('source').textContent;
    if (left === 0 || text.includes('line 8')) done(text); else setTimeout(look, 10, left - 1);
  };
  look(3000);
})"""


def folder_of(top):
    """A folder with source files, one of them a link to a file outside of it."""
    sources = top / "sources"
    sources.mkdir()
    (top / "outside.c").write_text("secret\n")
    (sources / "near.c").write_text("".join(f"line {number}\n" for number in range(1, 21)))
    (sources / "caller.c").write_text("first\n</script><script>alert(1)</script>\n")
    (sources / "binary.c").write_bytes(b"a\0b\n")
    os.symlink(top / "outside.c", sources / "link.c")
    return sources


def wrong_of(found):
    """What is wrong with the block of the sources."""
    why = {file["name"]: file["why"] for file in found["files"]}
    lines = {found["files"][part["file"]]["name"]: (part["first"], part["lines"].split("\n")) for part in found["parts"]}
    wanted = {
        "near.c": (3, [f"line {number}" for number in range(3, 14)]),
        "caller.c": (1, ["first", "</script><script>alert(1)</script>"]),
    }
    wrong = [f"{name}: {lines.get(name)}" for name, text in wanted.items() if lines.get(name) != text or why.get(name) != ""]
    wrong += [f"{name} is shown" for name in lines if name not in wanted]
    wrong += [f"{name} without a reason" for name in ("../outside.c", "/etc/passwd", "link.c", "binary.c", "gone.c") if not why.get(name)]
    return "; ".join(wrong)


# The chosen event, its lines of source with the one that is marked, whether they are in sight, and the column that is marked.
BESIDE = """(() => {
  const card = document.getElementById('event');
  const { top, bottom, height } = card.getBoundingClientRect();
  const lines = [...card.querySelectorAll('.source-text div')].map((line) => line.textContent.trim());
  const chosen = document.querySelector('#sheet .sheet-head .chosen')?.getBoundingClientRect();
  const column = document.querySelector(`#sheet .event[data-event="${card.dataset.event}"] .touch`)?.getBoundingClientRect();
  const isMarked = chosen !== undefined && column !== undefined && Math.abs(chosen.left - column.left) < 3;
  const here = card.querySelector('[aria-current]')?.textContent.trim() ?? null;
  return { text: card.textContent, lines, here, isInSight: height > 0 && top >= 0 && bottom <= innerHeight, isMarked };
})()"""


def beside_the_event(pages):
    """The event that a finding is of, one that is clicked on, and one that is reached by keys."""
    lines = [f"{'▸' if number == 8 else ''}{number:6} line {number}".strip() for number in range(6, 11)]
    for size in ((1000, 700), (1400, 900)):
        pages.browser.send("Emulation.setDeviceMetricsOverride", width=size[0], height=size[1], deviceScaleFactor=1, mobile=False)
        pages.browser.run("page.choose(page.findings.find('never_persisted', 1)); page.stretch(1, 7)")
        pages.browser.run("document.getElementById('source').open = false; scrollTo(0, 0)")
        pages.browser.click("#sheet .event[data-event='6']")
        other = pages.browser.run(BESIDE)
        yield "why an event's source line is not there", "" if "event 6 " in other["text"] and "No such file" in other["text"] and not other["lines"] else other
        pages.browser.click("#sheet .event[data-event='1']")
        shown = pages.browser.run(BESIDE)
        right = [" ".join(line.split()) for line in shown["lines"]] == [" ".join(line.split()) for line in lines] and "line 8" in shown["here"]
        yield f"source lines beside the event at {size}", "" if right and shown["isInSight"] and shown["isMarked"] else shown
    pages.browser.run("document.getElementById('sheet').focus()")
    pages.press("ArrowRight")
    moved = pages.browser.run(BESIDE)
    yield "the event follows the crash", "" if "event 2 " in moved["text"] and moved["isMarked"] else moved
    pages.browser.run("document.getElementById('list').open = true")
    pages.browser.run("new Promise((done) => setTimeout(done, 50))")
    listed = pages.browser.run("document.querySelector('#events li[data-event=\"1\"]').innerText")
    yield "the list has the source line", "" if listed.rstrip().endswith("line 8") else listed
    pages.browser.send("Emulation.setDeviceMetricsOverride", width=1400, height=1000, deviceScaleFactor=1, mobile=False)


def cases(pages):
    """What is asked, and what is wrong about the answer."""
    sources = folder_of(pages.folder)
    trace = pages.folder / "sources.trace"
    labels = pages.folder / "sources.labels"
    trace.write_bytes(TRACE)
    labels.write_text("".join(f"{number} {text}\n" for number, text in enumerate(LABELS, 1)))
    page, blocks = pages.make(trace, "--labels", labels, "--source", sources, name="sources")
    yield "source lines", wrong_of(blocks["sources"])
    pages.open(page, "#never_persisted=1")
    pages.press("s")
    shown = pages.browser.run(SHOWN)
    yield "source lines in sight", "" if "line 8" in shown and "</script>" in shown else shown[:200]
    yield from beside_the_event(pages)
    yield "no faults", "; ".join(pages.faults(page))
    for words in (["--source", sources], ["--html", "--source", sources], ["--html", "--labels", labels, "--source", pages.folder / "none"]):
        done = subprocess.run([pages.program, "explain", *words, trace], capture_output=True, timeout=300)
        wanted = 4 if "none" in str(words[-1]) else 2
        yield f"refused {words[:-1]}", "" if done.returncode == wanted and done.stdout == b"" else f"{done.returncode} {done.stderr[:200]}"
