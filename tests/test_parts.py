"""Cuts random traces into parts and compares each with the whole by the states of machine.py: what it carries and sets aside, verdicts,
findings and what is kept. Then faulty lines, labels, carries that are too large, a text of any length, and every device that fails.
"""
import json
import pathlib
import random
import subprocess
from functools import partial

import crowded
import faulty
import machine
from checks import add_tests
from faulty import Answer, UnderFaults, run_whole
from machine import FENCES, FLUSHES, Trace, spelled

TRACES = 120
WEIGHTS = {"store": 6, "flush": 8, "fence": 6, "isPersist": 2, "isOrderedBefore": 4}


def long_trace(choose):
    """The header and a trace with many flushes and fences, so that few stores are pending at a time."""
    size, threads = choose.choice((32, 64, 128, 256)), choose.choice((1, 2, 3))
    places = [0x1000 + size * line + offset for line in range(choose.choice((1, 2))) for offset in (0, 1, 8)]
    events = []
    for _ in range(choose.randrange(20, 60)):
        thread, at = choose.randrange(threads), choose.choice(places)
        kind = choose.choices(list(WEIGHTS), WEIGHTS.values())[0]
        if kind == "store":
            events.append(("store", thread, at, choose.randbytes(choose.choice((1, 1, 2, 4)))))
        elif kind == "flush":
            events.append((choose.choice((*FLUSHES, "clwb", "clflush")), thread, at))
        elif kind == "fence":
            events.append((choose.choice(FENCES), thread))
        else:
            spans = [choose.choice(places), choose.choice((1, 2, 9)), choose.choice(places), choose.choice((1, 2, 3))]
            events.append((kind, thread, *spans[: 4 if kind == "isOrderedBefore" else 2]))
    return f"pmtrace 2 {size}", Trace(size, events)


def text_of(header, events):
    return machine.text_of([header, *map(spelled, events)])


class Part:
    """The files of a part."""

    def __init__(self, path):
        self.path = path
        self.lines = path.read_text().splitlines()
        told = [line.split() for line in pathlib.Path(f"{path}.part").read_text().splitlines()]
        self.told = {row[0]: row[1:] for row in told if row[0] not in ("carries", "aside", "ignored")}
        self.carries = [tuple(map(int, row[1:])) for row in told if row[0] == "carries"]
        self.aside = [tuple(map(int, row[1:])) for row in told if row[0] == "aside"]
        self.ignored = [row[1] for row in told if row[0] == "ignored"]
        self.place, self.carried, self.overlap = (int(self.told[word][0]) for word in ("place", "carried", "overlap"))
        self.first, self.last = map(int, self.told["answers"])
        self.is_last = self.told["last"] == ["yes"]
        self.numbers = [whole for _, whole in self.carries] + [*range(self.place + 1, self.last + 1)]

    def labels(self):
        return pathlib.Path(f"{self.path}.labels").read_text()

    def cut(self):
        """What stands in the file that says why it ends there; None where there is none."""
        path = pathlib.Path(f"{self.path}.cut")
        return path.read_text() if path.exists() else None


def parts_at(prefix):
    """The parts that stand, as far as their numbers go on."""
    found = []
    while (path := pathlib.Path(f"{prefix}.{len(found) + 1:04}.trace")).exists():
        found.append(Part(path))
    return found


# ---- What a part is to be, by the definitions


def is_pending(trace, number, place):
    return trace.event(number)[0] == "store" and not trace.is_safe(number, place)


def is_last_open(trace, number, place):
    """The last flush of its line by its thread, with no fence of it since."""
    word, thread = trace.event(number)[:2]
    later = [trace.event(other) for other in range(number + 1, place + 1) if trace.event(other)[1] == thread]
    return word in FLUSHES and not any(event[0] in FENCES or event[0] in FLUSHES and event[2] // trace.size == trace.line(number) for event in later)


def is_ignored(trace, number, ranges):
    event = trace.event(number)
    return event[0] == "store" and all(any(start <= byte < start + length for start, length in ranges) for byte in range(event[2], event[2] + len(event[3])))


def carry_of(trace, place, ranges=()):
    carried = (number for number in range(1, place + 1) if is_pending(trace, number, place) or is_last_open(trace, number, place))
    return [number for number in carried if not is_ignored(trace, number, ranges)]


def stores_in(trace, low, high, byte):
    return [number for number in range(low + 1, high + 1) if trace.event(number)[0] == "store" and trace.event(number)[2] <= byte < trace.event(number)[2] + len(trace.event(number)[3])]


def aside_of(trace, place, before, last):
    """The isOrderedBefore to some byte of whose second range no store has come since the place."""
    if place == 0:
        return []
    ordered = (number for number in range(before + 1, last + 1) if trace.event(number)[0] == "isOrderedBefore")
    return [number for number in ordered if any(not stores_in(trace, place, number, byte) for byte in range(trace.event(number)[4], trace.event(number)[4] + trace.event(number)[5]))]


def knows(trace, number, place):
    """Whether each last store to the second range comes after the place."""
    event = trace.event(number)
    return all(store > place for store in trace.last_stores(event[4], event[5], number))


def wanted_parts(trace, events, overlap, ranges=()):
    """The place, the first and the last event of each part and what it carries, and the place over which too much is carried, if any."""
    place = before = 0
    parts = []
    while True:
        carried = carry_of(trace, place, ranges)
        if len(carried) > events // 2:
            return parts, place
        last = min(len(trace.events), place + events - len(carried))
        parts.append((place, before + 1, last, carried))
        if last == len(trace.events):
            return parts, None
        place, before = last - min(overlap, last - place), last


def renumbered(entry, numbers):
    """An entry of `check` on a part, with the numbers of the whole."""
    return " ".join(str(numbers[int(word) - 1]) if word.isdigit() else word for word in entry.split())


def entries_of(program, part):
    report = run_whole(program, "check", str(part.path)).out.decode().splitlines()
    return [renumbered(line, part.numbers) for line in report[1:-1]]


def place_of(entry):
    words = entry.split()
    return int(words[3] if words[0] == "overwritten" else words[1])


def judged_part(trace, part, came):
    """Complaints: the entries of a part differ from those of the whole where it answers."""
    end = {entry for number in trace.numbers for entry in machine.entries_at(trace, number) if entry.startswith("never-persisted")} if part.is_last else set()
    aside = {number for _, number in part.aside}
    wanted = {entry for number in range(part.first, part.last + 1) for entry in machine.entries_at(trace, number) if not entry.startswith("never-persisted")}
    known = {entry for entry in came if part.first <= place_of(entry) <= part.last and not entry.startswith("never-persisted")}
    lost = {entry for entry in came if entry.startswith("never-persisted")} if part.is_last else set()
    beside = lambda entries: {entry for entry in entries if not (entry.startswith("ordered") and place_of(entry) in aside)}
    return [] if (beside(known), lost) == (beside(wanted), end) else [f"{part.path.name}: {sorted(beside(known) ^ beside(wanted))} {sorted(lost ^ end)}"]


def is_decided(trace, number, last):
    word, thread = trace.event(number)[:2]
    return word not in FLUSHES or any(trace.event(other)[0] in FENCES and trace.event(other)[1] == thread for other in range(number + 1, last + 1))


def texts_kept(trace, part, program):
    """Complaints: what is kept of a part is not what is kept of the whole, where that is decided."""
    own = Trace(trace.size, [trace.event(number) for number in part.numbers])
    wanted = [spelled(trace.event(number)) for place, number in enumerate(part.numbers, 1) if (machine.is_kept(trace, number) if is_decided(trace, number, part.last) else machine.is_kept(own, place))]
    came = run_whole(program, "trim", str(part.path)).out.decode().splitlines()[1:]
    return [] if came == wanted else [f"{part.path.name}: kept {came}, wanted {wanted}"]


def same_answer(answer, parts, place, last):
    """Complaints: the answer does not count the parts, or does not say that too much is carried over this place."""
    if place is None:
        right = answer == Answer(0, f"parts {len(parts)} events {last} aside {sum(len(part.aside) for part in parts)}\n".encode())
    else:
        right = answer.status == 3 and not answer.out and f"are carried over event {place}: more than half".encode() in answer.faults
    return [] if right else [faulty.short(answer)]


def same_parts(trace, header, answer, parts, events, overlap, ranges=()):
    """Complaints: the answer and the parts are not those of the definitions."""
    wanted, place = wanted_parts(trace, events, overlap, ranges)
    complaints = same_answer(answer, parts, place, len(trace.events))
    if [(part.place, part.first, part.last, [number for _, number in part.carries]) for part in parts] != wanted:
        return [f"the parts are {[(part.place, part.first, part.last, part.carries) for part in parts]}, wanted {wanted}"]
    for number, part in enumerate(parts, 1):
        name = part.path.name
        if part.lines != [header, *(spelled(trace.event(whole)) for whole in part.numbers)] or len(part.lines) > events + 1:
            complaints.append(f"{name}: the events are not {part.numbers}")
        if [own for own, _ in part.carries] != [*range(1, part.carried + 1)] or part.overlap != part.first - 1 - part.place or part.told["part"] != [str(number)]:
            complaints.append(f"{name}: told {part.told}, {part.carries}")
        if part.is_last != (number == len(parts) and place is None):
            complaints.append(f"{name}: last {part.is_last}")
        if part.cut() != (None if part.is_last else f"{len(part.numbers)} the run goes on in part {number + 1}\n"):
            complaints.append(f"{name}: cut {part.cut()}")
        aside = aside_of(trace, part.place, part.first - 1, part.last)
        if [whole for _, whole in part.aside] != aside or any(part.numbers[own - 1] != whole for own, whole in part.aside):
            complaints.append(f"{name}: aside {part.aside}, wanted {aside}")
        ordered = [whole for whole in range(part.first, part.last + 1) if trace.event(whole)[0] == "isOrderedBefore"]
        if missing := [whole for whole in ordered if not knows(trace, whole, part.place) and whole not in aside]:
            complaints.append(f"{name}: {missing} are not set aside")
    return complaints


def told_of_its_end(program, part):
    """Complaints: `explain` and its page do not say that the run goes on, or count what it may still save; or do of the last part."""
    told = run_whole(program, "explain", str(part.path))
    page = run_whole(program, "explain", "--html", str(part.path))
    lines = map(json.loads, run_whole(program, "explain", "--json", str(part.path)).out.splitlines())
    weights = {line["word"] for line in lines if line["kind"] == "entry"}
    failed = bool(weights & {"fail", "suspect"}) or part.is_last and "lost" in weights
    says = (f"The trace was cut after event {len(part.numbers)}: the run goes on in part ".encode() in told.out, b": the run goes on in part " in page.out)
    right = (told.status, page.status) == (int(failed), int(failed)) and says == (not part.is_last, not part.is_last)
    return [] if right else [f"{part.path.name}: explain {told.status} {page.status}, wanted {int(failed)}; {says}"]


def random_words(choose):
    events = choose.randrange(4, 16)
    return events, choose.randrange(0, (events - 1) // 2 + 1)


def random_parts(program, folder, number, kind):
    """Complaints of one random trace and its parts."""
    choose = random.Random(f"parts {kind.__module__} {kind.__name__} {number}")
    header, trace = kind(choose)
    events, overlap = random_words(choose)
    prefix = folder / f"{kind.__module__}.{kind.__name__}.{number}"
    answer = run_whole(program, "parts", "--events", str(events), "--overlap", str(overlap), "--out", str(prefix), text=text_of(header, trace.events))
    parts = parts_at(prefix)
    complaints = same_parts(trace, header, answer, parts, events, overlap)
    for part in parts if not complaints else []:
        came = entries_of(program, part)
        complaints += judged_part(trace, part, came) + texts_kept(trace, part, program) + told_of_its_end(program, part)
    return complaints


# ---- By hand

HEAD = "pmtrace 1\n"
SMALL = ["store 0 0x1000 01", "clwb 0 0x1000", "store 0 0x1040 02", "sfence 0", "store 1 0x1080 03", "clwb 1 0x1080", "isOrderedBefore 0 0x1000 1 0x1040 1", "sfence 1", "store 0 0x1040 04", "isPersist 0 0x1080 1"]
FIRST = HEAD + "".join(line + "\n" for line in SMALL[:6])
SECOND = HEAD + "".join(SMALL[number - 1] + "\n" for number in (3, 5, 6, 7, 8, 9))
THIRD = HEAD + "".join(SMALL[number - 1] + "\n" for number in (3, 9, 10))
FIRST_TOLD = "part 1\nplace 0\ncarried 0\noverlap 0\nanswers 1 6\nlast no\n"
SECOND_TOLD = "part 2\nplace 6\ncarried 3\noverlap 0\nanswers 7 9\nlast no\ncarries 1 3\ncarries 2 5\ncarries 3 6\naside 4 7\n"
THIRD_TOLD = "part 3\nplace 9\ncarried 2\noverlap 0\nanswers 10 10\nlast yes\ncarries 1 3\ncarries 2 9\n"
FIRST_CUT, SECOND_CUT = "6 the run goes on in part 2\n", "6 the run goes on in part 3\n"
LABELS = "2 flush\n3 mark\n5 list.c:57 insert\n7 claim\n9 mark again\n12 none\n"
NAMED = ["2 flush\n3 mark\n5 list.c:57 insert\n", "1 mark\n2 list.c:57 insert\n4 claim\n6 mark again\n", "1 mark\n2 mark again\n"]
WORDS = ("--events", "6", "--overlap", "0")
ENDINGS = (".labels", ".cut", ".missing", ".ignore", ".base", ".origin", ".base2", ".origin2", ".base3", ".origin3")


def small_text():
    return HEAD + "".join(line + "\n" for line in SMALL)


ONE = {".0001.trace": small_text(), ".0001.trace.part": "part 1\nplace 0\ncarried 0\noverlap 0\nanswers 1 10\nlast yes\n"}


def standing(prefix):
    """The files that stand, by what follows the prefix."""
    return {path.name.removeprefix(prefix.name): path.read_text() for path in prefix.parent.glob(f"{prefix.name}.0*")}


def right_files(labelled=False):
    files = {}
    for number, (text, told) in enumerate(((FIRST, FIRST_TOLD), (SECOND, SECOND_TOLD), (THIRD, THIRD_TOLD)), 1):
        files |= {f".{number:04}.trace": text, f".{number:04}.trace.part": told}
        files |= {f".{number:04}.trace.labels": NAMED[number - 1]} if labelled else {}
    return files | {".0001.trace.cut": FIRST_CUT, ".0002.trace.cut": SECOND_CUT}


class Parts(UnderFaults):
    """Runs of the program, made side by side; a check is of a trace, of words or of a device."""

    def test_random_traces(self):
        folder = self.new_folder()
        kinds = (machine.random_trace, crowded.random_trace, long_trace)
        self.expect_of_all([(f"{kind.__module__} {number}", partial(random_parts, self.program, folder, number, kind)) for kind in kinds for number in range(TRACES)])

    def test_by_hand(self):
        folder = self.new_folder()
        trace, labels = folder / "small.trace", folder / "small.labels"
        trace.write_text(small_text())
        labels.write_text(LABELS)
        right = Answer(0, b"parts 3 events 10 aside 1\n")
        self.expect_equal("a file", run_whole(self.program, "parts", *WORDS, "--out", str(folder / "file"), str(trace)), right)
        self.expect_equal("its parts", standing(folder / "file"), right_files())
        self.expect_equal("standard input", run_whole(self.program, "parts", *WORDS, "--out", str(folder / "input"), "-", text=small_text().encode()), right)
        self.expect_equal("its parts, too", standing(folder / "input"), right_files())
        self.expect_equal("labels", run_whole(self.program, "parts", *WORDS, "--labels", str(labels), "--out", str(folder / "named"), str(trace)), right)
        self.expect_equal("its parts with labels", standing(folder / "named"), right_files(labelled=True))
        named = run_whole(self.program, "explain", "--labels", f"{folder / 'named'}.0003.trace.labels", f"{folder / 'named'}.0003.trace")
        self.expect("explain takes a part and its labels", named.status == 1 and b"mark again" in named.out, faulty.short(named))
        self.expect_equal("as one part", run_whole(self.program, "parts", "--out", str(folder / "named"), str(trace)), Answer(0, b"parts 1 events 10 aside 0\n"))
        self.expect_equal("nothing of before is left", standing(folder / "named"), ONE)
        self.expect_equal("no events", run_whole(self.program, "parts", "--out", str(folder / "none"), text=HEAD.encode()), Answer(0, b"parts 1 events 0 aside 0\n"))
        self.expect_equal("its part", standing(folder / "none"), {".0001.trace": HEAD, ".0001.trace.part": "part 1\nplace 0\ncarried 0\noverlap 0\nanswers 1 0\nlast yes\n"})

    def test_what_an_earlier_run_left(self):
        """Nothing stays beside a part that is of other events, but the bytes of pools beside the first one, which are those of the whole."""
        folder = self.new_folder()
        for number in (1, 2, 3, 4):
            for ending in ("", ".part", *ENDINGS):
                (folder / f"run.{number:04}.trace{ending}").write_text("old")
        self.expect_equal("the answer", run_whole(self.program, "parts", *WORDS, "--out", str(folder / "run"), text=small_text().encode()).status, 0)
        kept = {f".0001.trace{ending}": "old" for ending in ENDINGS if ending.startswith((".base", ".origin"))}
        self.expect_equal("what stands", standing(folder / "run"), right_files() | kept)
        self.expect_equal("as one part", run_whole(self.program, "parts", "--out", str(folder / "run"), text=small_text().encode()).status, 0)
        self.expect_equal("what stands then", standing(folder / "run"), ONE | kept)
        for number in (2, 3, 4):
            (folder / f"run.{number:04}.trace").write_text("old")
        answer = run_whole(self.program, "parts", *WORDS, "--out", str(folder / "run"), text=f"{small_text()}nonsense\n".encode())
        self.expect("a fault in the last part", answer.status == 3 and set(standing(folder / "run")) == {path for path in right_files() | kept if not path.startswith(".0003")}, standing(folder / "run"))

    def test_a_trace_that_was_cut(self):
        """The last part says what the whole says, by its own number; what is not said right is refused before a part is written."""
        folder = self.new_folder()
        trace, cut = folder / "small.trace", folder / "small.trace.cut"
        trace.write_text(small_text())
        for name, text, wanted in (("full", "10 a full disk\n", "3 a full disk\n"), ("empty", "", ""), ("short", "10 \n", "3 \n")):
            cut.write_text(text)
            answer = run_whole(self.program, "parts", *WORDS, "--out", str(folder / name), str(trace))
            self.expect_equal(f"{name}: the answer", answer, Answer(0, b"parts 3 events 10 aside 1\n"))
            self.expect_equal(f"{name}: the parts", standing(folder / name), right_files() | {".0003.trace.cut": wanted})
        told = run_whole(self.program, "stat", str(folder / "full.0003.trace")).out.decode()
        self.expect("stat", told.startswith("This trace was cut after event 3: a full disk\n"), told)
        told = run_whole(self.program, "stat", str(folder / "full.0001.trace")).out.decode()
        self.expect("stat of another part", told.startswith("This trace was cut after event 6: the run goes on in part 2\n"), told)
        cut.unlink()
        (folder / "small.trace.missing").write_text("bytes 2 children\n")
        answer = run_whole(self.program, "parts", *WORDS, "--out", str(folder / "lacks"), str(trace))
        self.expect_equal("what it lacks besides: each part", standing(folder / "lacks"), right_files() | {f".{number:04}.trace.missing": "bytes 2 children\n" for number in (1, 2, 3)})
        cut.write_text("some\n")
        refused = run_whole(self.program, "parts", *WORDS, "--out", str(folder / "bad"), str(trace))
        self.expect("a bad line", refused.status == 3 and refused.faults.decode().startswith(f"{cut}:1: ") and not standing(folder / "bad"), faulty.short(refused))

    def test_ignored(self):
        folder = self.new_folder()
        for number in range(40):
            choose = random.Random(f"ignored {number}")
            header, trace = long_trace(choose)
            events, overlap = random_words(choose)
            ranges = [(0x1000 + choose.choice((0, 1, 8)), choose.choice((1, 2, 8, 64))) for _ in range(choose.choice((1, 2)))]
            words = [word for start, length in ranges for word in ("--ignore", f"{start:#x}:{length}")]
            prefix = folder / str(number)
            answer = run_whole(self.program, "parts", "--events", str(events), "--overlap", str(overlap), *words, "--out", str(prefix), text=text_of(header, trace.events))
            complaints = same_parts(trace, header, answer, parts_at(prefix), events, overlap, ranges)
            told = [f"{start:#x}:{length}" for start, length in ranges]
            self.expect(f"{number}", not complaints and all(part.ignored == told for part in parts_at(prefix)), "\n".join(complaints))

    def test_too_much_is_carried(self):
        folder = self.new_folder()
        lines = [f"store 0 {0x2000 + 8 * (number % 8):#x} 01" for number in range(9)] + ["store 0 0x1000 01", "clwb 0 0x1000", "sfence 0"] * 4
        text = "pmtrace 2 128\n" + "".join(line + "\n" for line in lines)
        answer = run_whole(self.program, "parts", "--events", "12", "--overlap", "0", "--out", str(folder / "run"), text=text.encode())
        self.expect_equal("the status", (answer.status, answer.out), (3, b""))
        wanted = (
            "standard input: 9 events are carried over event 12: more than half of a part's 12\n"
            "stores to line 0x2000 among them: 9, with no complete flush after them; --ignore 0x2000:128 leaves them out\n"
            f"{folder}/run.0001.trace stands, which answers for events 1 to 12\n"
        )
        self.expect_equal("what is told", answer.faults.decode(), wanted)
        self.expect_equal("what stands", sorted(standing(folder / "run")), [".0001.trace", ".0001.trace.cut", ".0001.trace.part"])
        again = run_whole(self.program, "parts", "--events", "12", "--overlap", "0", "--ignore", "0x2000:128", "--out", str(folder / "run"), text=text.encode())
        self.expect_equal("with what was told", again, Answer(0, b"parts 2 events 21 aside 0\n"))
        lines = [f"clwb 0 {0x1000 + 64 * number:#x}" for number in range(20)]
        answer = run_whole(self.program, "parts", "--events", "12", "--overlap", "0", "--out", str(folder / "flushes"), text=(HEAD + "".join(line + "\n" for line in lines)).encode())
        self.expect("flushes", answer.status == 3 and b"12 events are carried over event 12: more than half of a part's 12\nthey are flushes whose threads do not fence\n" in answer.faults, faulty.short(answer))

    def test_a_faulty_line(self):
        """Of whichever part it is: the line of the whole is named, and the parts before it stand."""
        folder = self.new_folder()
        for number in range(1, len(SMALL) + 2):
            lines = [HEAD.rstrip(), *SMALL]
            lines[number - 1] += " 7"
            prefix = folder / f"line{number}"
            answer = run_whole(self.program, "parts", *WORDS, "--out", str(prefix), text=machine.text_of(lines))
            before = 0 if number <= 7 else 1 if number <= 10 else 2
            told = answer.faults.decode()
            named = told.startswith(f"standard input:{number}: ") and lines[number - 1] in told
            stand = ("", f"{prefix}.0001.trace stands, which answers for events 1 to 6\n", f"{prefix}.0001.trace to {prefix}.0002.trace stand, which answer for events 1 to 9\n")[before]
            self.expect(f"line {number}", answer.status == 3 and not answer.out and named and told.endswith(stand) and (" stand" in told) == (before > 0), faulty.short(answer))
            wanted = {name: text for name, text in right_files().items() if int(name[1:5]) <= before}
            self.expect_equal(f"line {number}: what stands", standing(prefix), wanted)
        cut = run_whole(self.program, "parts", *WORDS, "--out", str(folder / "cut"), text=small_text().encode()[:-1])
        self.expect("cut off", cut.status == 3 and cut.faults.startswith(b"standard input:11: the line does not end"), faulty.short(cut))
        endless = run_whole(self.program, "parts", *WORDS, "--out", str(folder / "endless"), text=small_text().encode() + b"x" * 70_000_000)
        self.expect("an endless line", endless.status == 3 and endless.faults.startswith(b"standard input:12: "), faulty.short(endless))
        long = run_whole(self.program, "parts", *WORDS, "--out", str(folder / "long"), text=small_text().encode() + b"x" * 67_108_870 + b"\n" + b"sfence 0\n" * 3)
        self.expect("a line that is longer than a text", long.status == 3 and long.faults.startswith(b"standard input:12: ") and b" is no event here\n" in long.faults, faulty.short(long))
        empty = run_whole(self.program, "parts", "--out", str(folder / "empty"))
        self.expect("no bytes", empty.status == 3 and empty.faults.startswith(b"standard input:1: the input is empty"), faulty.short(empty))

    def test_faulty_labels(self):
        folder = self.new_folder()
        labels = folder / "labels"
        for name, text, told, before in (
            ("no number", "1 one\nx two\n", ":2: 'x' is no number of an event", 0),
            ("not rising", "1 one\n8 two\n8 three\n", ":3: the number does not come after 8", 1),
            ("no text", "8 two\n9\n", ":2: the label has no text", 1),
            ("no end", "8 two\n10 three", ":2: the line does not end", 1),
        ):
            labels.write_text(text)
            prefix = folder / name.replace(" ", "_")
            answer = run_whole(self.program, "parts", *WORDS, "--labels", str(labels), "--out", str(prefix), text=small_text().encode())
            self.expect(name, answer.status == 3 and answer.faults.decode().startswith(f"{labels}{told}"), faulty.short(answer))
            self.expect_equal(f"{name}: parts", len(parts_at(prefix)), before)

    def test_refusals(self):
        folder = self.new_folder()
        trace, labels, cut = folder / "run.0002.trace", folder / "run.0001.trace.labels", folder / "run.0002.trace.cut"
        trace.write_text(small_text())
        labels.write_text(LABELS)
        cut.write_text("10 a full disk\n")
        out = str(folder / "out")
        for name, words, status, told in (
            ("no prefix", [str(trace)], 2, "--out <PREFIX>"),
            ("no events", ["--events", "0", "--out", out, str(trace)], 2, "a number from 1 to 1000000"),
            ("too many events", ["--events", "1000001", "--out", out, str(trace)], 2, "a number from 1 to 1000000"),
            ("a bad number", ["--events", "07", "--out", out, str(trace)], 2, "without leading zeros"),
            ("half of a part", ["--events", "6", "--overlap", "3", "--out", out, str(trace)], 2, "less than half of --events"),
            ("a bad range", ["--ignore", "0x1000", "--out", out, str(trace)], 2, "invalid value '0x1000' for '--ignore <A:N>'"),
            ("no trace", ["--out", out, str(folder / "none")], 4, "cannot open"),
            ("no labels", ["--labels", str(folder / "none"), "--out", out, str(trace)], 4, "cannot open"),
            ("no folder", ["--out", f"{folder}/none/out", str(trace)], 4, "cannot create"),
            ("over the labels", [*WORDS, "--labels", str(labels), "--out", str(folder / "run"), str(trace)], 2, f"'{labels}' is read"),
            ("over the trace", [*WORDS, "--out", str(folder / "run"), str(trace)], 2, f"'{trace}' is read"),
            ("later parts over the trace", ["--out", str(folder / "run"), str(trace)], 2, f"'{trace}' is read"),
        ):
            answer = run_whole(self.program, "parts", *words)
            self.expect(name, answer.status == status and not answer.out and told in answer.faults.decode(), faulty.short(answer))
            self.expect(f"{name}: nothing is written", not standing(folder / "out"))
            self.expect_equal(f"{name}: the trace stays", trace.read_text(), small_text())
            self.expect_equal(f"{name}: what stands beside it stays", cut.read_text(), "10 a full disk\n")
            self.expect(f"{name}: the labels stay", str(labels) not in words or labels.read_text() == LABELS)

    def test_a_line_that_is_too_long(self):
        """It is told as that, though it ends."""
        text = f"{HEAD}store 0 0x0 {'0' * 70_000_000}\n".encode()
        answer = run_whole(self.program, "parts", "--out", str(self.new_folder() / "run"), text=text)
        self.expect_equal("the fault", answer, Answer(3, b"", b"standard input:2: the line is too long: the text of a part has at most 67108864 bytes\n"))

    def test_any_length(self):
        """More events and more bytes than a trace has: saved records of one line each, and one line that is never flushed."""
        folder = self.new_folder()
        block = "store 0 0x2000 0102030405060708\nclwb 0 0x2000\nsfence 0\nisPersist 0 0x2000 8\n"
        count = 900_000
        with subprocess.Popen([self.program, "parts", "--out", str(folder / "run")], stdin=subprocess.PIPE, stdout=subprocess.PIPE, stderr=subprocess.PIPE) as running:
            running.stdin.write(b"pmtrace 1\nstore 1 0x1000 01\n")
            for _ in range(count // 1000):
                running.stdin.write(block.encode() * 1000)
            out, faults = running.communicate()
        events = 1 + 4 * count
        self.expect("it is longer than a trace", events > 1_000_000 and len(block) * count > 67_108_864)
        self.expect_equal("the answer", (running.returncode, out, faults), (0, f"parts 4 events {events} aside 0\n".encode(), b""))
        told = [(part.place, part.carries, part.first, part.last, len(part.lines) - 1) for part in parts_at(folder / "run")]
        wanted = [(0, [], 1, 1_000_000, 1_000_000)]
        while wanted[-1][3] < events:
            place = wanted[-1][3] - 100_000
            pending = [1] + {1: [], 2: [place], 3: [place - 1, place], 0: []}[place % 4]
            carried = [(own, whole) for own, whole in enumerate(pending, 1)]
            last = min(events, place + 1_000_000 - len(carried))
            wanted.append((place, carried, wanted[-1][3] + 1, last, len(carried) + last - place))
        self.expect_equal("the parts", told, wanted)

    def check_fault(self, kind):
        """Each call that may fail, failing: the fault is told, and the parts that stand are whole and right."""
        folder = self.new_folder()
        trace, labels = folder / "small.trace", folder / "small.labels"
        trace.write_text(small_text())
        labels.write_text(LABELS)
        prefix = folder / "out"
        right = right_files(labelled=True)
        words = ["parts", *WORDS, "--labels", str(labels), "--out", str(prefix), str(trace)]
        status = 5 if kind == "memory" else 4
        failed = at = 1
        while failed and at < 5000:
            for path in folder.glob("out.*"):
                path.unlink()
            answer, failed = faulty.run(self.library, self.program, words, fault=kind, fault_at=at, **({} if kind == "memory" else {"fault_piece": 1}))
            came = standing(prefix)
            whole = {name[:5] for name in came}
            stands = came == {name: text for name, text in right.items() if name[:5] in whole} and whole == {f".{number:04}" for number in range(1, len(whole) + 1)}
            done = answer == Answer(0, b"parts 3 events 10 aside 1\n") and len(whole) == 3
            refused = answer.status == status and answer.faults
            self.expect(f"{kind} {at}", stands and (done or (failed and refused)), f"{faulty.short(answer)}, {sorted(came)}")
            at += 1
        self.expect(f"{kind}: calls", at > 4 and answer.status == 0, faulty.short(answer))


add_tests(Parts, Parts.check_fault, {f"faults_of_{kind}": kind for kind in ("read", "write", "nothing_taken", "memory")})
