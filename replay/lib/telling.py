"""What is told at the end: counts, and the images that failed, in groups."""
import math
import re
import shlex

MOST_GROUPS, MOST_TEXTS = 8, 4
NUMBER = re.compile(r"0x[0-9a-fA-F]+|\d+")


def counted(number, thing):
    return f"{number} {thing}" if number == 1 else f"{number} {thing}s"


def told_of(trace, kept, lost):
    """What is told of a crash by the stores that it keeps and loses, from the last one back: the last one that it keeps, the last one before
    it that it loses, how many it loses, and of each site the last one that it keeps and the first one that it loses."""
    own = [number for number in lost if not trace.is_ignored(number)]
    before = [number for number in own if kept and number < kept[0]]
    return {
        "kept": kept[0] if kept else None,
        "lost": before[0] if before else None,
        "losses": len(own),
        "ignored": len(lost) - len(own),
        "kept_by_site": {trace.site(number): number for number in reversed(kept)},
        "lost_by_site": {trace.site(number): number for number in own},
    }


def groups_of(trace, failures):
    """The failed images in groups. Two sites make one: of the last store that its first crash keeps, which at an early place is the one that the
    checker fails for, and of the last one before it that it loses. All crashes are of it that keep a store of the one site and lose one of
    the other before it. Crashes that lose none before the last one that they keep are of one group where the checker said the same."""
    pairs, killed = {}, {}
    for result in failures:
        kept, lost = result["kept_by_site"], result["lost_by_site"]
        if result["lost"]:
            own = trace.site(result["kept"]), trace.site(result["lost"])
            pair = next((pair for pair in pairs if kept.get(pair[0], 0) > lost.get(pair[1], math.inf)), own)
            pairs.setdefault(pair, []).append(result)
        else:
            killed.setdefault(tuple(said_by(result)), []).append(result)
    return sorted([*pairs.values(), *killed.values()], key=lambda results: results[0]["number"])


def stores_of(trace, result):
    """The two stores that a crash is told by, in the order of the run, and how many others it loses."""
    kept, lost, count, ignored = (result[name] for name in ("kept", "lost", "losses", "ignored"))
    rows = [f"loses {trace.describe(lost)}{f', and {count - 1} more' if count > 1 else ''}"] if lost else []
    rows += [f"keeps {trace.describe(kept)}"] if kept else []
    rows += [f"loses {counted(count, 'store')}{' after it' if kept else ''}"] if count and not lost else []
    return rows + [f"loses {counted(ignored, 'store')} that {trace.path}.ignore leaves out"] * (ignored > 0)


def said_by(result):
    """How the checker ended, and what it wrote last but for numbers, in which one bug differs from crash to crash."""
    return [result["status"], *(NUMBER.sub("N", line) for line in result["tail"])]


def rows_of(trace, number, results):
    """A group: what its crashes have in common, and the first one, with what the checker said and the command that shows it."""
    first = results[0]
    kept, lost = trace.site(first["kept"]), trace.site(first["lost"])
    head = f"kept {kept}, lost {lost}" if lost else f"as if the program was killed, first at {kept or 'the beginning'}"
    others = sum(said_by(result) != said_by(first) for result in results)
    rows = [
        *stores_of(trace, first),
        f"checker: {first['status']}, on image {first['number']} of place {first['place']}",
        *(f"| {line}" for line in first["tail"]),
        *[f"it ended or wrote otherwise on {counted(others, 'image')}"] * (others > 0),
        first["made_by"] or drawn(trace, first),
    ]
    return [f"{number}. {counted(len(results), 'image')}: {head}", *(f"    {row}" for row in rows)]


class Texts:
    """What the checker wrote last, if it never failed: texts that differ tell images apart, though each is taken."""

    def __init__(self):
        self.images = {}

    def add(self, result):
        self.images.setdefault(tuple(result["tail"]), []).append((result["number"], result["place"]))

    def rows(self):
        """The most frequent texts, where there are several."""
        if len(self.images) < 2:
            return []
        rows = [f"where it did not fail, the checker wrote {len(self.images)} different texts:"]
        by_count = sorted(self.images.items(), key=lambda item: (-len(item[1]), min(item[1])))
        for text, images in by_count[:MOST_TEXTS]:
            number, place = min(images)
            rows.append(f"{'':7}{counted(len(images), 'image')}, the first is image {number} of place {place}:")
            rows += [f"{'':15}| {line}" for line in text] or [f"{'':15}nothing"]
        if len(by_count) > MOST_TEXTS:
            rows.append(f"{'':7}and {counted(len(by_count) - MOST_TEXTS, 'more text')}")
        return rows


def table(trace, failures):
    """The groups of images that failed."""
    groups, rows = groups_of(trace, failures), []
    for number, results in enumerate(groups[:MOST_GROUPS], 1):
        rows += [*rows_of(trace, number, results), ""]
    if len(groups) > MOST_GROUPS:
        more = sum(map(len, groups[MOST_GROUPS:]))
        rows += [f"and {counted(len(groups) - MOST_GROUPS, 'more group')}, of {counted(more, 'image')}", ""]
    return [*rows, "next: a picture of the first one:", f"  {drawn(trace, failures[0])}"]


def drawn(trace, result):
    """The command that draws what stands round the crash."""
    path = shlex.quote(trace.path)
    labels = f"--labels {shlex.quote(trace.path + '.labels')} " if trace.labels else ""
    return f"pmtrim draw --around {max(result['place'], 1)} {labels}{path} > crash.svg"


def summary(trace, places, options, counts, seconds):
    """What was run."""
    off = counted(options.off, "cache line")
    held = f", and held at the front: {', '.join(options.hold)}" if options.hold else ""
    known = f" ({counts.known} of them in an earlier run)" if counts.known else ""
    return [
        f"{trace.path}: {counted(len(trace.lines), 'event')}, {counted(places, 'place')}, at most {off} off the front or the count{held}",
        f"{counted(counts.crashes, 'crash').replace('crashs', 'crashes')}, {counted(counts.images, 'different image')}: {counts.failed} failed{known}; {seconds:.1f} s",
    ]
