"""What `explain` tells first: the entries and the verdict of its JSON, and its status, against entries.py: of traces by
hand, of random ones, of all worked traces and examples; and that the traces by hand tell each rule of entries.py from
another one."""
import collections
import json
import pathlib
import random
import subprocess
import types

import entries
from acts import FIRST, read_acts
from checks import Checks, add_tests
from machine import spelled, text_of
from page_machine import read_trace
from traces import all_traces
from worked_entries import ENTRIES

TRACES = 400
# Calls of a function, in the letters of acts.py: A is a line, and B the next one.
PIECES = (
    *["sA fA |"] * 5, "sA", "sA |", "sA | | fA |", "sA fA sA.8@s | fA |", "sA fA sA.8@s | | fA |", "sA fA sB fB |",
    "sA sB fB | fA |", "sA.56@r sB@r fA | | fB |", "sA.60x4@w sBx4@w fA fB |", "sA.60x4@w sBx4@w FA | | fB |",
    "s98@n s98@n", "s99@k", "sA fA | pA", "sA | | fA | pA", "sA fA | sB@m sB.8@m fB | oA>B", "sA pA fA |", "pA", "fA",
    "|", "p99.8", *["sA@l sB fB | fA |"] * 2,
)
CHOICES = (["--only", "hint"], ["--only", "failure"], ["--thread", "1"], ["--from", "5"], ["--range", f"{FIRST:#x}:64"])

# Rules of entries.py, and what stands there in place of each.
CHANGED = {
    "late by one fence": ("self.waited(store) >= 2", "self.waited(store) >= 1"),
    "late by three": ("self.waited(store) >= 2", "self.waited(store) >= 3"),
    "fences of any thread": ("self.open.pop(thread, {})", "self.open.pop(0, {})"),
    "claimed by what fails": ("if passes:", "if True:"),
    "claimed as a second range": ("self.claimed |= first", "self.claimed |= first | (second or set())"),
    "claimed though it loses": ("is_claimed=not lost and ", "is_claimed="),
    "claimed by one store": ("set(filter(run.is_waiting, numbers)) <= run.claimed", "bool(set(missed) & run.claimed)"),
    "scratch is lost": ('return "meant" if self.is_scratch else "lost"', 'return "lost"'),
    "scratch that loses some": ("standing(counts)[0] == LOSES_ALL and not any", "not any"),
    "scratch once": ("len(self.lost(numbers)) < 2", "not self.lost(numbers)"),
    "scratch at two addresses": ("stores[0][2] == stores[-1][2]", "True"),
    "scratch in another line": ("not self.scratch.isdisjoint(map(run.line, lost[:1]))", "bool(self.scratch)"),
    "scratch by itself alone": ("not self.scratch.isdisjoint(map(run.line, lost[:1]))", "self.is_lone_scratch(numbers, counts)"),
    "scratch that is flushed": ("after(*ANY_FLUSH))", "[])"),
    "scratch by clflush": ("after(*ANY_FLUSH))", 'after("clwb", "clflushopt"))'),
    "scratch that is asserted": ("after(*ASSERTIONS))", "[])"),
    "scratch that was flushed before": (" if number > first]", "]"),
    "scratch in second ranges": ("fields[at + 1]) for at in range(0, len(fields), 2)]", "fields[at + 1]) for at in (0,)]"),
    "no signs": ("self.sign is not None or self.has_contrast", "self.has_contrast"),
    "no contrasts": ("self.sign is not None or self.has_contrast", "self.sign is not None"),
    "no claims": ('"meant" if self.is_claimed else "check"', '"check"'),
    "claims before signs": (
        '"suspect" if self.sign is not None or self.has_contrast else "meant" if self.is_claimed',
        '"meant" if self.is_claimed else "suspect" if self.sign is not None or self.has_contrast',
    ),
    "no sign of a short flush": ('if kind != "one_line_short":\n', "if True:\n"),
    "a short flush in any call": ("run.next_fence(flush) == run.next_fence(first) and ", ""),
    "a short flush of any line": (" and run.line(flush) + 1 == run.line(first)", ""),
    "no sign of an early flush": ('kind == "stored_after_flush" and', "False and"),
    "a word is a sign": ('kind == "stored_after_flush" and', 'kind in ("stored_after_flush", "split_word") and'),
    "signs at any site": (" and self.hinted[index] == key\n", "\n"),
    "contrast of half": ("2 * len(missed) < ", "2 * len(missed) <= "),
    "contrast in a path": (" and not is_mixed", ""),
    "contrast of any path": ("if self.run.site(numbers[0]) == key]", "]"),
    "losses with delays": ('return self.loses, self.weight == "meant",', 'return False, self.weight == "meant",'),
    "meant with others": ('return self.loses, self.weight == "meant",', "return self.loses, False,"),
    "the end of any thread": ("self.thread, self.fence", "0, self.fence"),
    "any first call": ("self.thread, self.fence", "self.thread, 0"),
    "most sites first": ("sorted(groups, key=lambda group: group[1][0])", "groups"),
    "the first site's weight": ("min((site.weight for site in sites), key=WEIGHTS.index)", "sites[0].weight"),
    "signs told twice": ("index in signs or is_told", "is_told"),
    "open flushes, twice": ('if hint["count"] < LEAST:', "if False:"),
    "open flushes by half": ("2 * len(same & self.clear) > len(same)", "2 * len(same & self.clear) >= len(same)"),
    "open flushes by any address": ("(self.event(store)[2], self.site(store))", "self.site(store)"),
    "open flushes by any site": ("(self.event(store)[2], self.site(store))", "self.event(store)[2]"),
    "open flushes by one path": ("[2], self.site(store))", "[2], self.path(store))"),
    "open flushes by a path": ('if self.run.has_contrast(hint["first"]["event"])', 'if hint["path"]'),
    "open flushes in the same line": (" and line != key[1])", ")"),
    "open flushes of any thread": ("set() if self.open[thread] else", "set() if any(self.open.values()) else"),
    "words told": ('None if hint["hint"] == "split_word" else "check"', '"check"'),
    "left, twice": ('counts["left"] >= LEAST and key not', "key not"),
    "left at a hint": (" and key not in self.hinted", ""),
    "left with nothing kept": (" and self.run.keeps_before(numbers)", ""),
    "left by a path, twice": ('counts["left"] >= LEAST and site not', "site not"),
    "left by each path": ("{*whole, *self.hinted}", "{*self.hinted}"),
    "left by a path at a hint": ("{*whole, *self.hinted}", "{*whole}"),
    "hints before losses": ("*self.losses(), *self.hint_entries()", "*self.hint_entries(), *self.losses()"),
    "left before hints": ("*self.hint_entries(), *self.left()", "*self.left(), *self.hint_entries()"),
    "paths before sites": ("*self.left(), *self.left_paths()", "*self.left_paths(), *self.left()"),
    "not by weight": ("sorted(found, key=lambda entry: WEIGHTS.index(entry.word))", "found"),
    "a verdict of what is meant": ('if entry.word != "meant"]', "]"),
    "no store is ok": ('return "nothing"', 'return "ok"'),
    "a lost store is ok": ('return "probably_ok"', 'return "ok"'),
    "no claim is ok": ('else "ok_so_far"', 'else "ok"'),
    "suspect is fine": ('("fail", "lost", "suspect")', '("fail", "lost")'),
    "check is not": ('("fail", "lost", "suspect")', '("fail", "lost", "suspect", "check")'),
    "lost in a cut trace": ("and not knows_losses else", "and False else"),
    "strict, but check": ('"check" in weights or self.verdict', "self.verdict"),
    "strict, but probably": ('"check" in weights or self.verdict == "probably_ok"', '"check" in weights'),
}


class Told:
    """What the program tells of a trace as JSON, and what entries.py does."""

    def __init__(self, program, file, words=(), run=()):
        self.run = run
        command = [program, "explain", "--json", "--limit", "all", *map(str, words), str(file)]
        done = subprocess.run(command, capture_output=True, text=True, timeout=120)
        self.status, self.fault, self.lines = done.returncode, done.stderr, collections.defaultdict(list)
        for line in map(json.loads, done.stdout.splitlines()):
            self.lines[line["kind"]].append(line)

    def by(self, module=entries):
        return module.Entries(module.Run(*self.run), self.lines["hint"], self.lines["cause"])

    @property
    def verdict(self):
        return self.lines["summary"][0]["verdict"]

    def wrong(self, *how):
        """What is wrong with what is told, if anything."""
        wanted = self.by()
        told = [{name: plain(name, entry) for name in entries.Entry._fields} for entry in self.lines["entry"]]
        came = (self.fault, self.verdict, self.status, told)
        right = ("", wanted.verdict, wanted.status(*how), [entry._asdict() for entry in wanted.entries])
        return next((f"{one}, wanted {other}" for one, other in zip(came, right) if one != other), None)


def plain(name, entry):
    """A member of an entry, as entries.py has it."""
    if name == "sites":
        return [entries.origin_of(site) for site in entry["sites"]]
    return entry["first"]["event"] if name == "first" else entry[name]


def in_short(told):
    """The verdict and the entries, as worked_entries.py has them."""
    found = []
    for entry in told.lines["entry"]:
        sites = entry["path"] or " ".join(name for _, name in plain("sites", entry))
        what = {"failure": str(entry["first"]["event"]), "hint": f"{entry['why']} {sites}"}
        found.append(f"{entry['word']} {entry['subject']} {what.get(entry['subject'], sites)}")
    return f"{told.verdict}: {'; '.join(found)}".strip()


def write(folder, events, labels, size=64):
    """The file of a trace, and the words that name its labels."""
    (folder / "trace").write_bytes(text_of([f"pmtrace 2 {size}", *map(spelled, events)]))
    (folder / "names").write_bytes(text_of(f"{number} {label}" for number, label in labels.items()))
    return folder / "trace", ["--labels", folder / "names"] if labels else []


def random_piece(choose):
    """The acts of a call, each with a site of its own."""
    line = choose.randrange(0, 12, 2)
    for word in choose.choice(PIECES).split():
        act, _, name = word.partition("@")
        placed = act.replace("A", str(line)).replace("B", str(line + 1))
        yield word if word == "|" else f"{placed}@{name or act.replace('.', '').replace('>', '')}"


def random_acts(choose):
    """Events of a few calls, and labels of most."""
    threads, callers = (0, 0, 0, 0, 1), ("a", "a", "b", "c")
    pieces = (" ".join(random_piece(choose)) for _ in range(choose.randrange(2, 16)))
    calls = [f"t{choose.choice(threads)} {choose.choice(callers)}: {piece}" for piece in pieces]
    events, labels = read_acts(" ".join(calls))
    often = choose.choice((0, 0.7, 1, 1, 1, 1))
    return events, {number: label for number, label in labels.items() if choose.random() < often}


def lines_ignored(choose):
    """A few cache lines that are ignored."""
    return choose.sample(range(12), choose.choice((0, 0, 0, 2))) + choose.choice(([], [], [98]))


class Entries(Checks):
    """The entries, the verdict, and the status."""

    def told_of(self, acts, folder, has_labels=True):
        events, labels = read_acts(acts)
        labels = labels if has_labels else {}
        return Told(self.program, *write(folder, events, labels), (64, events, labels))

    def check_by_hand(self, row):
        acts, wanted = row
        told = self.told_of(acts, self.new_folder())
        self.expect_equal(acts, in_short(told), wanted)
        self.expect("entries.py", not told.wrong(), told.wrong())
        wrong = self.told_of(acts, self.new_folder(), has_labels=False).wrong()
        self.expect("without labels", not wrong, wrong)

    def check_trace(self, file):
        names = file.with_name(f"{file.name}.labels")
        lines = [line.split(" ", 1) for line in names.read_text().splitlines()] if names.exists() else []
        run = (*read_trace(file.read_bytes()), {int(number): label for number, label in lines})
        told = Told(self.program, file, ["--labels", names] if lines else [], run)
        self.expect(file.stem, not told.wrong(), told.wrong())

    def test_random_acts(self):
        """Also of stores that are ignored, of cut traces, and by --strict."""
        choose, folder, found = random.Random(31), self.new_folder(), collections.Counter()
        for number in range(TRACES):
            found.update(self.told_of_random(number, choose, folder))
        wanted = [*entries.WEIGHTS[:4], "ok", "probably_ok", "check left", *(f"{word} stores" for word in entries.WEIGHTS[1:])]
        self.expect_equal("all are there", [what for what in wanted if found[what] < 3], [])

    def told_of_random(self, number, choose, folder):
        """What one trace has. What is chosen changes neither verdict nor status."""
        events, labels = random_acts(choose)
        file, words = write(folder, events, labels)
        ignored, is_strict, is_cut = lines_ignored(choose), choose.random() < 0.3, choose.random() < 0.1
        words += ["--strict"] * is_strict
        words += [word for line in ignored for word in ("--ignore", f"{FIRST + 64 * line:#x}:64")]
        folder.joinpath("trace.cut").write_text(f"{len(events)} it was cut\n" if is_cut else "")
        if not is_cut:
            folder.joinpath("trace.cut").unlink()
        is_ignored = lambda store: (events[store - 1][2] - FIRST) // 64 in ignored
        told = Told(self.program, file, words, (64, events, labels, is_ignored))
        wrong = told.wrong(is_strict, not is_cut)
        text = f"{file.read_text()}{folder.joinpath('names').read_text()}"
        self.expect(f"trace {number}", not wrong, f"{wrong} by {words} of\n{text}")
        chosen = Told(self.program, file, [*words, *choose.choice(CHOICES)])
        self.expect_equal(f"trace {number}, chosen", (chosen.verdict, chosen.status), (told.verdict, told.status))
        return [told.verdict, *{f"{entry['word']} {entry['subject']}" for entry in told.lines["entry"]}]

    def test_changed(self):
        """One of the traces by hand tells of each rule whether it is as it is."""
        folder = self.new_folder()
        told = [self.told_of(acts, folder) for acts, _ in ENTRIES.values()]
        source, right = pathlib.Path(entries.__file__).read_text(), [answers(one.by()) for one in told]
        for name, (old, new) in CHANGED.items():
            changed = types.ModuleType("changed")
            exec(source.replace(old, new), changed.__dict__)
            self.expect(name, old in source and right != [answers(one.by(changed)) for one in told], "no trace tells")


def answers(found):
    how = ((), (True,), (False, False), (True, False))
    return [*map(tuple, found.entries)], found.verdict, [found.status(*one) for one in how]


BY_HAND = {f"by_hand_{name.replace(' ', '_').replace(',', '')}": row for name, row in ENTRIES.items()}
add_tests(Entries, Entries.check_by_hand, BY_HAND)
add_tests(Entries, Entries.check_trace, {f"trace_{trace.stem}": trace for trace in all_traces()})
