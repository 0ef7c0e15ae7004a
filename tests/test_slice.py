"""Compares the slices that `slice` writes with the definition over the states of machine.py, and what the program says of a slice with what
it says of the whole trace, and tries what is refused and every device that fails.
"""
import json
import pathlib
import random
from functools import partial

import crowded
import faulty
import machine
from checks import add_tests
from faulty import Answer, UnderFaults, run_whole
from slices import slice_of, standing_of, store_slice_of
from traces import all_traces

TRACES = 150


class Sliced:
    """A failed assertion of a trace, or a store of it, and the files of its slice."""

    def __init__(self, program, folder, file, number, labels=None, what="failure"):
        self.program, self.file, self.number, self.what = program, file, number, what
        self.out = folder / f"{file.stem}.{what}{number}.trace"
        named = [] if labels is None else ["--labels", str(labels)]
        self.answer = run_whole(program, "slice", f"--{what}", str(number), *named, "--out", str(self.out), str(file))
        if self.answer.status == 0:
            self.text = self.out.read_bytes()
            self.lines = self.text.decode().splitlines()
            pairs = [line.split() for line in self.beside("numbers").decode().splitlines()]
            self.numbers = [int(whole) for _, whole in pairs]
            self.places = [int(here) for here, _ in pairs]

    def beside(self, ending):
        return pathlib.Path(f"{self.out}.{ending}").read_bytes()

    def matching(self, number):
        """The number of an event of the whole in the slice."""
        return self.numbers.index(number) + 1


def failing_of(program, file):
    """The failed assertions of a trace, as `check` tells them."""
    report = run_whole(program, "check", str(file)).out.decode().splitlines()
    return [int(line.split()[1]) for line in report if line.endswith(" fail")]


def failure_of(program, file, number):
    told = run_whole(program, "explain", "--json", "--failure", str(number), str(file)).out.decode().splitlines()
    return next(entry for entry in map(json.loads, told) if entry["kind"] == "failure")


def renumbered(value, matching):
    """A part of an entry, with the numbers that its events have in the slice; the lines of the text are left out."""
    if not isinstance(value, dict):
        return value
    return {name: matching(part) if name == "event" else renumbered(part, matching) for name, part in value.items() if name != "line"}


def crash_of(entry, matching):
    """The crash that is told of a failure: its place, what it keeps and loses, and why."""
    return {"place": matching(entry["place"]), **{name: renumbered(entry[name], matching) for name in ("kept", "lost", "cause")}}


def same_failure(program, sliced):
    """Complaints: the slice is not the events that its numbers name, or what is told of its assertion is not what is told of the whole."""
    complaints = []
    name = f"{sliced.file.name} {sliced.number}"
    if sliced.answer != Answer(0, b""):
        return [f"{name}: {faulty.short(sliced.answer)}"]
    whole = sliced.file.read_text().splitlines()
    if sliced.lines != [whole[0], *(whole[number] for number in sliced.numbers)] or sliced.places != [*range(1, len(sliced.numbers) + 1)]:
        complaints.append(f"{name}: the slice {sliced.lines} is not {sliced.numbers}")
    last = len(sliced.numbers)
    if sliced.numbers[-1] != sliced.number or failing_of(program, sliced.out)[-1:] != [last]:
        complaints.append(f"{name}: event {last} of the slice does not fail")
        return complaints
    wanted = crash_of(failure_of(program, sliced.file, sliced.number), sliced.matching)
    told = crash_of(failure_of(program, sliced.out, last), lambda number: number)
    if told != wanted:
        complaints.append(f"{name}: the slice has {told}, wanted {wanted}")
    return complaints


def accepted(program, sliced):
    """Complaints of a command that does not take the slice."""
    commands = (["check"], ["explain"], ["trim"], ["trim", "--stream"], ["draw"], ["explain", "--json"], ["explain", "--html"], ["image", "--list"])
    for words in commands:
        answer = run_whole(program, *words, str(sliced.out))
        if answer.status not in (0, 1) or answer.faults:
            yield f"{sliced.out.name} {words}: {faulty.short(answer)}"
    again = run_whole(program, "slice", f"--{sliced.what}", str(sliced.matching(sliced.number)), str(sliced.out))
    if again != Answer(0, sliced.text):
        yield f"{sliced.out.name}: its slice is {faulty.short(again)}"


def random_slices(program, folder, number, kind):
    """Of a random trace: each slice of a failed assertion is the one of the definition; other events have none."""
    complaints = []
    header, trace = kind(random.Random(number))
    file = folder / f"{kind.__module__}{number}.trace"
    file.write_bytes(machine.text_of([header, *map(machine.spelled, trace.events)]))
    for event in range(len(trace.events) + 2):
        sliced = Sliced(program, folder, file, event)
        if event in trace.numbers and trace.event(event)[0].startswith("is") and machine.verdict(trace, event).endswith("fail"):
            complaints += same_failure(program, sliced) or accepted(program, sliced)
            if sliced.answer.status == 0 and sliced.numbers != slice_of(trace, event):
                complaints.append(f"{file.name} {event}: {sliced.numbers}, wanted {slice_of(trace, event)}")
        elif sliced.answer.status != 2 or sliced.answer.out or not sliced.answer.faults.startswith(b"error: ") or sliced.out.exists():
            complaints.append(f"{file.name} {event}: {faulty.short(sliced.answer)}, and it is no failed assertion")
    return complaints


def lost_word(program, file, number):
    """What `check` says of a store that is never persisted; none of another."""
    report = run_whole(program, "check", str(file)).out.decode().splitlines()
    return next((line.split()[2] for line in report if line.startswith(f"never-persisted {number} ")), None)


def wrong_store_slice(program, sliced, header, trace):
    """Complaints: the slice of a store is not the one of the definition, or the store is not as lost and as late in it as in the whole."""
    number, name = sliced.number, f"{sliced.file.name} store {sliced.number}"
    if sliced.answer != Answer(0, b""):
        return [f"{name}: {faulty.short(sliced.answer)}"]
    wanted = store_slice_of(trace, number)
    part = machine.Trace(trace.size, [trace.event(at) for at in wanted])
    if sliced.numbers != wanted or sliced.text != machine.text_of([header, *map(machine.spelled, part.events)]):
        return [f"{name}: {sliced.numbers}, wanted {wanted}"]
    here = sliced.matching(number)
    complaints = []
    if standing_of(part, here) != standing_of(trace, number):
        complaints.append(f"{name}: {standing_of(part, here)} in the slice, {standing_of(trace, number)} in the whole")
    if lost_word(program, sliced.out, here) != lost_word(program, sliced.file, number):
        complaints.append(f"{name}: check says {lost_word(program, sliced.out, here)} of the slice")
    return complaints


def random_store_slices(program, folder, number, kind):
    """Of a random trace: each store that is lost or late has the slice of the definition; other events have none."""
    complaints = []
    header, trace = kind(random.Random(number))
    file = folder / f"{kind.__module__}{number}.store.trace"
    file.write_bytes(machine.text_of([header, *map(machine.spelled, trace.events)]))
    for event in range(len(trace.events) + 2):
        sliced = Sliced(program, folder, file, event, what="store")
        if event in trace.numbers and any(standing_of(trace, event) or ()):
            wrong = wrong_store_slice(program, sliced, header, trace)
            complaints += wrong or accepted(program, sliced)
        elif sliced.answer.status != 2 or sliced.answer.out or not sliced.answer.faults.startswith(b"error: ") or sliced.out.exists():
            complaints.append(f"{file.name} {event}: {faulty.short(sliced.answer)}, and it is no store that is lost or late")
    return complaints


TRACE = """pmtrace 1
store 0 0x1000 01
store 1 0x2000 02
clwb 1 0x1000
sfence 1
store 0 0x1001 03
store 0 0x1040 04
clwb 0 0x1000
isPersist 1 0x2000 1
isOrderedBefore 0 0x1000 2 0x1040 1
"""
LABELS = "1 record\n2 other\n6 mark\n9 claim of all, here\n"
SLICE = """pmtrace 1
store 0 0x1000 01
clwb 1 0x1000
sfence 1
store 0 0x1001 03
store 0 0x1040 04
clwb 0 0x1000
isOrderedBefore 0 0x1000 2 0x1040 1
"""
NUMBERS = "1 1\n2 3\n3 4\n4 5\n5 6\n6 7\n7 9\n"
NAMED = "1 record\n5 mark\n7 claim of all, here\n"


def small(folder):
    trace, labels = folder / "small.trace", folder / "small.labels"
    trace.write_text(TRACE)
    labels.write_text(LABELS)
    return str(trace), str(labels)


def written(out):
    """What stands in the files of a slice."""
    return {ending: path.read_text() for ending in ("", ".numbers", ".labels") if (path := pathlib.Path(f"{out}{ending}")).exists()}


class Slices(UnderFaults):
    """Runs of the program, made side by side; a check is of a trace, of words or of a device."""

    def test_random_slices(self):
        folder = self.new_folder()
        kinds = (machine.random_trace, crowded.random_trace)
        self.expect_of_all([(f"{kind.__module__} {number}", partial(random_slices, self.program, folder, number, kind)) for kind in kinds for number in range(TRACES)])

    def test_random_store_slices(self):
        folder = self.new_folder()
        kinds = (machine.random_trace, crowded.random_trace)
        self.expect_of_all([(f"{kind.__module__} {number}", partial(random_store_slices, self.program, folder, number, kind)) for kind in kinds for number in range(TRACES)])

    def test_a_late_store_by_hand(self):
        """It is safe by another flush, after two fences of its thread of four; and a store of another line, which is lost."""
        text = "pmtrace 1\nstore 0 0x1000 01\nstore 0 0x1040 02\nsfence 0\nsfence 1\nsfence 0\nsfence 0\nclwb 1 0x1000\nsfence 0\nsfence 1\nisPersist 0 0x1000 1\n"
        late = "pmtrace 1\nstore 0 0x1000 01\nsfence 0\nsfence 0\nclwb 1 0x1000\nsfence 0\nsfence 1\n"
        lost = "pmtrace 1\nstore 0 0x1040 02\nsfence 0\nsfence 0\n"
        for number, wanted in ((1, late), (2, lost)):
            self.expect_equal(f"store {number}", run_whole(self.program, "slice", "--store", str(number), text=text.encode()), Answer(0, wanted.encode()))

    def check_slices_of(self, file):
        folder = self.new_folder()
        labels = pathlib.Path(f"{file}.labels")
        failing = failing_of(self.program, file)
        for number in failing:
            sliced = Sliced(self.program, folder, file, number, labels if labels.exists() else None)
            complaints = same_failure(self.program, sliced)
            complaints += [] if complaints else accepted(self.program, sliced)
            self.expect(f"event {number}", not complaints, "\n".join(complaints))
            if labels.exists() and not complaints:
                names = dict(line.split(" ", 1) for line in labels.read_text().splitlines())
                wanted = [f"{here} {names[str(whole)]}" for here, whole in enumerate(sliced.numbers, 1) if str(whole) in names]
                self.expect_equal(f"labels of {number}", sliced.beside("labels").decode().splitlines(), wanted)
        if not failing:
            answer = run_whole(self.program, "slice", "--failure", "1", str(file))
            self.expect("no slice", answer.status == 2 and not answer.out, faulty.short(answer))

    def test_a_slice_by_hand(self):
        trace, labels = small(self.new_folder())
        words = ["slice", "--failure", "9"]
        self.expect_equal("to standard output", run_whole(self.program, *words, trace), Answer(0, SLICE.encode()))
        self.expect_equal("of standard input", run_whole(self.program, *words, text=TRACE.encode()), Answer(0, SLICE.encode()))
        out = f"{trace}.part"
        self.expect_equal("to a file", run_whole(self.program, *words, "--out", out, trace), Answer(0, b""))
        self.expect_equal("the files", written(out), {"": SLICE, ".numbers": NUMBERS})
        self.expect_equal("with labels", run_whole(self.program, *words, "--labels", labels, "--out", out, trace), Answer(0, b""))
        self.expect_equal("the files with labels", written(out), {"": SLICE, ".numbers": NUMBERS, ".labels": NAMED})
        named = run_whole(self.program, "explain", "--labels", f"{out}.labels", out)
        self.expect("explain takes the labels", named.status == 1 and b"claim of all, here" in named.out, faulty.short(named))
        named = run_whole(self.program, "explain", "--labels", f"{out}.numbers", out)
        self.expect("explain takes the numbers", named.status == 1 and not named.faults, faulty.short(named))

    def test_refusals(self):
        folder = self.new_folder()
        trace, labels = small(folder)
        out = str(folder / "out.trace")
        missing, bad = str(folder / "none"), folder / "bad"
        bad.write_text("pmtrace 1\nstore 0\n")
        for name, words, status, told in (
            ("no failure and no store", [trace], 2, "name one of them"),
            ("a failure and a store", ["--failure", "9", "--store", "5", trace], 2, "name one of them"),
            ("a store that is safe", ["--store", "1", "--out", out, trace], 2, "event 1 is no store that is never persisted or late"),
            ("no store", ["--store", "9", "--out", out, trace], 2, "event 9 is no store"),
            ("a bad number", ["--failure", "09", trace], 2, "an event's number"),
            ("event 0", ["--failure", "0", trace], 2, "an event's number"),
            ("an event that passes none", ["--failure", "1", "--out", out, trace], 2, "event 1 is no assertion that a crash can violate"),
            ("past the end", ["--failure", "10", "--out", out, trace], 2, "event 10 is no assertion"),
            ("labels alone", ["--failure", "9", "--labels", labels, trace], 2, "'--labels' stands with '--out'"),
            ("no trace", ["--failure", "9", "--out", out, missing], 4, f"cannot open {missing}: "),
            ("no labels", ["--failure", "9", "--labels", missing, "--out", out, trace], 4, f"cannot open {missing}: "),
            ("a bad trace", ["--failure", "9", "--out", out, str(bad)], 3, f"{bad}:2: "),
            ("bad labels", ["--failure", "9", "--labels", str(bad), "--out", out, trace], 3, f"{bad}:1: "),
            ("over the trace", ["--failure", "9", "--out", trace, trace], 2, f"'{trace}' is read"),
            ("over the labels", ["--failure", "9", "--labels", labels, "--out", labels, trace], 2, f"'{labels}' is read"),
            ("labels over labels", ["--failure", "9", "--labels", labels, "--out", labels.removesuffix(".labels"), trace], 2, f"'{labels}' is read"),
            ("no folder", ["--failure", "9", "--out", f"{missing}/out", trace], 4, f"cannot create {missing}/out: "),
        ):
            answer = run_whole(self.program, "slice", *words)
            self.expect(name, answer.status == status and not answer.out and told in answer.faults.decode(), faulty.short(answer))
            self.expect_equal(f"{name}: nothing is written", written(out), {})
        self.expect_equal("the trace stays", pathlib.Path(trace).read_text(), TRACE)
        self.expect_equal("the labels stay", pathlib.Path(labels).read_text(), LABELS)
        pathlib.Path(f"{out}.numbers").mkdir()
        answer = run_whole(self.program, "slice", "--failure", "9", "--out", out, trace)
        self.expect("numbers that can not be created", answer.status == 4 and f"cannot create {out}.numbers: ".encode() in answer.faults, faulty.short(answer))
        self.expect("the slice goes then", not pathlib.Path(out).exists())

    def check_fault(self, kind):
        """Each call that may fail, failing: the fault is told, and no file stays; of standard output the first bytes may be out."""
        folder = self.new_folder()
        trace, labels = small(folder)
        out = str(folder / "out.trace")
        files = {"": SLICE, ".numbers": NUMBERS, ".labels": NAMED}
        base = ["slice", "--failure", "9"]
        status = 5 if kind == "memory" else 4
        for words, right, whole in ((base, SLICE.encode(), {}), ([*base, "--labels", labels, "--out", out], b"", files)):
            failed = at = 1
            while failed and at < 5000:
                for ending in files:
                    pathlib.Path(f"{out}{ending}").unlink(missing_ok=True)
                answer, failed = faulty.run(self.library, self.program, [*words, trace], fault=kind, fault_at=at, **({} if kind == "memory" else {"fault_piece": 1}))
                done = answer.status == 0 and (answer.out, written(out)) == (right, whole)
                refused = answer.status == status and answer.faults and not written(out) and right.startswith(answer.out) and (kind != "memory" or not answer.out)
                self.expect(f"{kind} {at} {words[3:4]}", done or (failed and refused), f"{faulty.short(answer)}, {written(out)}")
                at += 1
            self.expect(f"{kind} {words[3:4]}: calls", at > 4 and answer.status == 0, faulty.short(answer))


add_tests(Slices, Slices.check_slices_of, {f"slices_of_{file.stem}": file for file in all_traces()})
add_tests(Slices, Slices.check_fault, {f"faults_of_{kind}": kind for kind in ("read", "write", "nothing_taken", "memory")})
