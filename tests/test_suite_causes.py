"""pmtrim-suite: which causes there are, and how often they come, as the definitions of docs/SUITE.md say over all states of the machine."""
import collections
import random
from functools import partial

from checks import Checks
from explained import Explained
from machine import FENCES, FLUSHES, Trace, spelled
from suites import FENCE, FILL, FLUSH_MARK, FLUSH_RECORD, MARK, ORDERED, RIGHT, SAVE_MARK, SAVE_RECORD, SAVED, Programs, ids_of, put_run, report_of, suite

SUITES = 24
RUNS = 3
# A helper of two callers claims for both; the second one's store is saved only where it is flushed.
HELPER = [
    ("store 0 {0} 01", "a.c:1 {1}"),
    ("clwb 0 {0}", "a.c:2 {1}"),
    ("sfence 0", "a.c:3 {1}"),
    ("isPersist 0 {0} 1", "check.c:5 claim < {1} a.c:4"),
]
# Bugs, each with what it is told as; no later fence saves what every second one loses.
PLANTED = [
    ("failure isOrderedBefore unflushed", [FILL, MARK, FLUSH_RECORD, FLUSH_MARK, FENCE, ORDERED]),
    ("failure isOrderedBefore unflushed", [FILL, MARK, SAVE_MARK, SAVE_RECORD, ORDERED]),
    ("failure isOrderedBefore unfenced", [FILL, FLUSH_RECORD, MARK, FENCE, SAVE_MARK, ORDERED]),
    ("failure isOrderedBefore later", [MARK, SAVE_MARK, FILL, SAVE_RECORD, ORDERED]),
    ("failure isPersist unflushed", [FILL, SAVED, SAVE_RECORD, MARK, SAVE_MARK]),
    ("failure isPersist unfenced", [FILL, FLUSH_RECORD, SAVED, FENCE, MARK, SAVE_MARK]),
    ("never_persisted unflushed", [FILL, SAVE_RECORD, MARK]),
    ("never_persisted unfenced", [FILL, SAVE_RECORD, MARK, FLUSH_MARK]),
    ("never_persisted unflushed", [FILL, MARK, SAVE_MARK]),
    ("never_persisted unfenced", [MARK, SAVE_MARK, FILL, FLUSH_RECORD]),
]


def random_block(choose, number):
    """Events of one thread and one or two cache lines of its own, with their labels: so blocks may come in any order."""
    base, events, labels = 0x1000 * (number + 1), [], []
    places = [base + 64 * line + offset for line in range(2) for offset in (0, 8)]
    for _ in range(choose.randrange(10, 16)):
        kind = choose.choices(("store", "flush", "fence", "isPersist", "isOrderedBefore"), (6, 3, 2, 2, 4))[0]
        if kind == "store":
            events.append(("store", number, choose.choice(places), b"\1"))
        elif kind == "flush":
            events.append((choose.choice(FLUSHES), number, choose.choice(places)))
        elif kind == "fence":
            events.append((FENCES[0], number))
        else:
            spans = [choose.choice(places), choose.choice((1, 9)), choose.choice(places), 1]
            events.append((kind, number, *spans[: 4 if kind == "isOrderedBefore" else 2]))
        labels.append(("c.c", 5, "claim") if kind.startswith("is") else (choose.choice(("a.c", "b.c")), choose.randrange(40), choose.choice(("save", "fill"))))
    return list(zip(events, labels))


def shuffled(choose, blocks):
    """The events of all blocks, each block's in their order."""
    left, events = [list(block) for block in blocks], []
    while any(left):
        events.append(choose.choice([block for block in left if block]).pop(0))
    return events


def wanted_of(trace, labels):
    """The causes that fail a report: kind, reason and places of each, and how often it comes."""
    explained, found = Explained(trace, [], labels), collections.Counter()
    named = lambda number: "{0}:{2}".format(*labels[number].replace(" ", ":").split(":")) if number in labels else "(run)"
    for number in explained.failing():
        _, place, kept, lost, _ = explained.violation(number)
        stores = [lost[0]] if kept is None else [lost[0], kept[0]]
        reason = f"{trace.event(number)[0]} {explained.cause(lost[0], place)['cause']}"
        found["failure", reason, (named(number), *map(named, stores))] += 1
    for entry in explained.entries:
        if entry.startswith("never-persisted"):
            _, number, state = entry.split()
            found["never_persisted", "unfenced" if state == "flushed" else "unflushed", (named(int(number)),)] += 1
    return found


def came_of(folder):
    causes = [cause for cause in report_of(folder)["causes"] if cause["kind"] in ("failure", "never_persisted")]
    return collections.Counter({(cause["kind"], cause["reason"], tuple(cause["names"])): cause["count"] for cause in causes})


def random_suite(folder, number):
    """Complaints of a suite whose runs do the same in other orders, at other lines."""
    choose = random.Random(f"causes {number}")
    blocks = [random_block(choose, number) for number in range(2)]
    wanted, ids = collections.Counter(), []
    for run in range(RUNS):
        shift = 10 * run
        events, labels = zip(*shuffled(choose, blocks))
        texts = {at: f"{file}:{line + shift} {function} < main {file}:{at}" for at, (file, line, function) in enumerate(labels, 1) if line % 7}
        path = put_run(folder / f"{run}/run", map(spelled, events))
        (path / "trace.labels").write_text("".join(f"{at} {text}\n" for at, text in texts.items()))
        told = suite("report", folder / str(run), "--jobs", "1")
        if told.status not in (0, 1) or "not known" in told.out.replace("not known: 1 run", ""):
            return [f"{told}"]
        wanted = wanted_of(Trace(64, list(events)), texts)
        if came_of(folder / str(run)) != wanted:
            return [f"run {run}: {came_of(folder / str(run))}, wanted {wanted}"]
        ids.append(ids_of(folder / str(run)))
    return [] if ids[0] == ids[1] == ids[2] else [f"ids: {ids}"]


class Causes(Checks):
    """Which causes there are."""

    def test_random_suites(self):
        folder = self.new_folder()
        self.expect_of_all([(f"suite {number}", partial(random_suite, folder / str(number), number)) for number in range(SUITES)])
        groups = [(path, cause) for path in folder.glob("*/0") for cause in report_of(path)["causes"] if cause["kind"] == "failure"]
        heads = collections.Counter((str(path), cause["names"][0], cause["reason"]) for path, cause in groups)
        self.expect("several causes at one place", sum(count > 1 for count in heads.values()) > 3, heads)

    def test_shared_helper(self):
        """A helper that claims for two callers: what is new of the second is told beside what is known of the first, whichever comes first."""
        runs = self.new_folder()
        known = runs.parent / f"{runs.name}.baseline"
        self.addCleanup(lambda: known.unlink(missing_ok=True))
        for lossy, words, wanted in (("foo", ["--update-baseline"], "1 cause, 0 new"), (("foo", "bar"), [], "2 causes, 1 new")):
            for callers in (("foo", "bar"), ("bar", "foo")):
                rows = [(event.format(f"{0x1000 * len(name + caller):#x}", caller), label.format("", caller)) for name, caller in zip(("a", "bb"), callers) for event, label in HELPER if not (event.startswith("clwb") and caller in lossy)]
                put_run(runs / "a", [event for event, _ in rows], [label for _, label in rows])
                told = suite("report", runs, "--fail-on", "failure", "--baseline", known, *words)
                self.expect(f"{lossy} of {callers}", wanted in told.out.splitlines()[0] and told.status == ("1 new" in wanted), told)
                self.expect("it is named", ("loses" in told.out and "a.c:1 bar" in told.out) == (told.status == 1), told.out)

    def test_many(self):
        """Of a loop's many failures some are told in full, and no new cause is lost among them."""
        rounds, rows = 1000, []
        for number in range(rounds):
            place = "odd" if number == rounds - 1 else ("even", "other")[number % 2]
            rows += [("store 0 0x40 01", f"a.c:{number % 2} {place}"), ("isPersist 0 0x40 1", "a.c:9 claim"), ("clwb 0 0x40", "a.c:10 claim"), ("sfence 0", "a.c:11 claim")]
        runs = self.new_folder()
        put_run(runs / "a", [event for event, _ in rows], [label for _, label in rows])
        suite("report", runs)
        self.expect_equal("each is told", came_of(runs), {("failure", "isPersist unflushed", ("a.c:claim", f"a.c:{name}")): count for name, count in (("even", 500), ("other", 499), ("odd", 1))})

    def test_reasons(self):
        """A place that loses stores for two reasons has two causes, but for what is ignored."""
        runs = self.new_folder()
        rows = [("store 0 0x40 01", "a.c:1 put"), ("clwb 0 0x40", "a.c:2 put"), ("store 0 0x40 02", "a.c:1 put"), ("store 0 0x80 01", "b.c:1 put"), ("clwb 0 0x80", "b.c:2 put"), ("store 0 0x80 02", "b.c:1 put"), ("isPersist 0 0x0 1", "a.c:3 put")]
        put_run(runs / "a", [event for event, _ in rows], [label for _, label in rows], ignore="label b.c:1 put\n")
        suite("report", runs)
        causes = {(cause["reason"], cause["names"][0]): (cause["count"], cause["of"]) for cause in report_of(runs)["causes"] if cause["kind"] == "never_persisted"}
        self.expect_equal("by reason", causes, {("unfenced", "a.c:put"): (1, 2), ("unflushed", "a.c:put"): (1, 2)})

    def test_ten_new(self):
        """Ten programs with a known bug each, and then with a new one in another function: told are those ten, each in its program."""
        programs = Programs(self.new_folder())
        known = programs.folder / "known"
        for body_of, words, wanted in ((lambda bug: RIGHT, ["--update-baseline"], "10 causes, 0 new"), (lambda bug: bug, [], "20 causes, 10 new")):
            for number, (_, bug) in enumerate(PLANTED):
                programs.add(f"p{number}", body_of(bug), lines=number if words else 0, known=PLANTED[number - number % 2][1])
            suite("record", "runs", "--own", "--", *programs.script(), cwd=programs.folder)
            told = suite("report", "runs", "--baseline", known, *words, cwd=programs.folder)
            self.expect(wanted, wanted in told.out.splitlines()[0] and told.status == (not words), told)
        ids = known.read_text()
        new = [cause for cause in report_of(programs.folder / "runs")["causes"] if cause["id"] not in ids and cause["kind"] in ("failure", "never_persisted")]
        came = sorted((*cause["runs"], f"{cause['kind']} {cause['reason']}", *set(cause["names"])) for cause in new)
        self.expect_equal("one in each", came, [(f"p{number}-1", wanted, f"p{number}.c:p{number}_save") for number, (wanted, _) in enumerate(PLANTED)])
