"""The first screen of `explain`: its facts, by the JSON and the trace, of all worked traces and examples, of the traces by
hand of worked_entries.py and of random ones; the commands that it names; and the rows of what is chosen."""
import os
import random
import re
import shlex
import shutil
import types

import grouped
import hinted
from acts import read_acts
from checks import Checks, add_tests
from crowded import random_trace
from explained import KINDS, Explained
from lost_ranges import range_block
from program import TOP
from running import run_as_shown
from screened import LINES, Screen, next_of, run, wrong_screen
from test_entries import random_acts, write
from traces import EXAMPLES, all_traces
from worked_entries import ENTRIES

TRACES = 150
# What may stand on a screen whose first entry has a long story.
MOST = 40
CHOSEN = 140
# A run of pmtrim-replay takes its time: those of traces with fewer events run, upon a pool of so many bytes.
MANY, POOL = 100, 1 << 16
REPLAYS = re.compile(r"pmtrim-replay (?:--at \S+ )?trace -- YOUR_CHECKER \{\}")
NOTHING = "Nothing of what is asked for was found."
SITES = ("a.c:1 put", "a.c:1 put < main m.c:9", "b.c:2 get < main m.c:8", "c.c:3")
# Many sites that lose a store each: five are told.
CROWD = " ".join(f"s{line}@save{line} f{line} | s{line + 1}@save{line} |" for line in range(0, 24, 2))


class Screens(Checks):
    """What a tired reader sees first."""

    def setUp(self):
        self.folder = self.new_folder()

    def screen_of(self, acts, labelled=True):
        events, labels = acts if isinstance(acts, tuple) else read_acts(acts)
        write(self.folder, events, labels if labelled else {})
        return Screen(self.program, ["--labels", "names"] if labelled and labels else [], "trace", cwd=self.folder)

    def expect_screen(self, name, screen, most=MOST):
        wrong = wrong_screen(screen)
        self.expect(name, not wrong and len(screen.lines) <= most, wrong or screen.text)

    def check_trace(self, file):
        shutil.copy(file, self.folder / "trace")
        names = file.with_name(f"{file.name}.labels")
        if names.exists():
            shutil.copy(names, self.folder / "names")
        screen = Screen(self.program, ["--labels", "names"] if names.exists() else [], "trace", cwd=self.folder)
        self.expect_screen(file.stem, screen, LINES)
        self.next_runs(screen)

    def next_runs(self, screen):
        """What is next, and what else pmtrim-replay is to run, runs as it stands and ends as it should."""
        spread = [int(event[2], 16) for event in screen.events if event[0] == "store"]
        is_small = spread and len(screen.events) < MANY and max(spread) - min(spread) < POOL // 2
        if is_small:
            (self.folder / "trace.base").write_bytes(bytes(POOL))
            (self.folder / "trace.origin").write_text(f"{min(spread):#x}\n")
        for command in {next_of(screen) or "", *REPLAYS.findall(" ".join(screen.text.split()))} - {""}:
            is_replay = command.startswith("pmtrim-replay")
            self.expect_runs(command, self.folder, (0 if is_small else 4) if is_replay else screen.status)

    def expect_runs(self, command, cwd, status):
        """The command ends so, with a checker that finds nothing wrong; 4 where there is no base."""
        for name, program in (("pmtrim", self.program), ("pmtrim-replay", TOP / "replay/pmtrim-replay")):
            if not (self.folder / name).exists():
                (self.folder / name).symlink_to(program)
        words = shlex.split(command.replace("YOUR_CHECKER", "true"))
        done = run_as_shown(words, {"PATH": f"{self.folder}:{os.environ['PATH']}"}, cwd=cwd)
        self.expect(f"{command} in {cwd}", done[0] == status and (status != 4 or ".origin is not there" in done[1]), done)

    def test_next_of_examples(self):
        """What is next on the screens that stand as examples is taken by the program that it names."""
        for file in sorted(EXAMPLES.glob("explain/*.text")):
            lines = file.read_text().splitlines()
            command = next_of(types.SimpleNamespace(lines=lines))
            if command:
                failed = command.startswith("pmtrim explain --failure")
                self.expect_runs(command, file.parent, 1 if failed else 4)

    def test_by_hand(self):
        for name, (acts, _) in ENTRIES.items():
            for labelled in (True, False):
                self.expect_screen(f"{name}, {labelled}", self.screen_of(acts, labelled))

    def test_random(self):
        choose = random.Random(47)
        for number in range(TRACES):
            self.expect_screen(f"trace {number}", self.screen_of(random_acts(choose)))

    def test_crowd(self):
        """Many entries: the first in full, at most five, and the rest counted; all of them by --limit all."""
        screen = self.screen_of(CROWD)
        found, left = screen.blocks()
        self.expect("a crowd", len(found) == 5 and left == 7 and len(screen.lines) <= LINES, screen.text)
        whole = run(self.program, "--labels", "names", "--limit", "all", "trace", cwd=self.folder).stdout.decode()
        self.expect("all of them", all(f"save{line}" in whole for line in range(0, 24, 2)), whole)

    def test_volatile(self):
        """Counters in the lines of what is saved: one question, and the command that leaves them out; no slip of a field that is saved else."""
        screen = self.screen_of(counted_hits(False))
        self.expect_screen("counters", screen, LINES)
        self.expect("counters apart", screen.volatile == {"lru.c:7 touch", "lru.c:8 touch"} and not screen.weighty, screen.text)
        self.expect_runs(next_of(screen), self.folder, 0)
        screen = self.screen_of(counted_hits(True))
        self.expect_screen("a field saved by put", screen, LINES)
        self.expect("a slip", not screen.volatile and screen.weighty, screen.text)

    def test_chosen(self):
        """With --only KIND the text has a row for each thing of that kind, or counts it."""
        choose = random.Random(53)
        for number in range(CHOSEN):
            _, trace = random_trace(choose)
            labels = {event: choose.choice(SITES) for event in trace.numbers if choose.random() < 0.7}
            kind = KINDS[number % len(KINDS)]
            explained = Explained(trace, [], labels, {"only": kind})
            file, words = write(self.folder, trace.events, labels, trace.size)
            lines = run(self.program, *words, "--only", kind, file).stdout.decode().splitlines()
            wanted = things_of(kind, explained)
            told = [line for line in lines[1:] if re.match(r"  [^ .]", line)]
            left = [int(found[1]) for found in (re.match(r"  \.\. (\d+) more ", line) for line in lines) if found]
            is_right = len(told) + sum(left) == wanted and (NOTHING in lines) == (wanted == 0)
            self.expect(f"{kind} of trace {number}", is_right, f"wanted {wanted} in\n" + "\n".join(lines))

    def test_in_full(self):
        """A failed assertion that is told alone: which cache lines of its range the crash keeps, and which bytes it loses."""
        choose, told = random.Random(59), 0
        for number in range(CHOSEN):
            _, trace = random_trace(choose)
            explained = Explained(trace, [], {})
            for failing in explained.failing()[-1:]:
                file, _ = write(self.folder, trace.events, {}, trace.size)
                text = run(self.program, "--failure", failing, file).stdout.decode()
                whole = " ".join(text.split())
                wanted = [" ".join(line.split()) for line in range_block(explained, explained.failure(failing))]
                self.expect(f"failure {failing} of trace {number}", all(line in whole for line in wanted), f"{wanted} in {text}")
                told += 1
        self.expect("many fail", told > 20, told)


def counted_hits(is_saved):
    """Events and labels of rounds that save a slot, and count and link another one, which `put` may save too."""
    events, labels = [], {}

    def add(event, label):
        events.append(event)
        labels[len(events)] = label

    for at in range(60):
        # each slot is saved at first, and then seldom; most rounds save a line of their own
        slot, other = 0x1000 + at % 8 * 64 if at < 8 or at % 10 == 0 else 0x9000, 0x1000 + (at * 5 + 3) % 8 * 64
        for field in range(3 if is_saved else 1):
            add(("store", 0, slot + 8 * field, bytes([at + 1])), f"cache.c:{field + 3} put")
        add(("clwb", 0, slot), "cache.c:8 put")
        add(("sfence", 0), "cache.c:9 put")
        for field in (1, 2):
            add(("store", 0, other + 8 * field, bytes([at + 1])), f"lru.c:{field + 6} touch")
    return events, labels


def things_of(kind, explained):
    """How many rows are of this kind, which is asked for."""
    if kind == "hint":
        return len(list(hinted.entries(explained))) + sum(entry.subject == "left" for entry in explained.told.entries)
    return len({
        "failure": lambda: explained.causes,
        "never_persisted": lambda: grouped.lost(explained),
        "dropped": lambda: grouped.dropped_groups(explained),
        "overwritten": explained.overwritten,
        "unwritten": explained.unwritten,
        "late": lambda: grouped.late(explained),
    }[kind]())


add_tests(Screens, Screens.check_trace, {f"screen_of_{trace.stem}": trace for trace in all_traces()})
