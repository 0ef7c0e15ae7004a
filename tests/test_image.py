"""Compares the pool files that `image` writes with the machine of machine.py, and those of the crashes that `explain` tells with what it
tells, and tries every refusal and every device that fails.

The pool begins at an odd address and ends a few bytes past the last line, so that no edge of it is one of a line or of a word.
"""
import pathlib
import random
import tempfile
from functools import partial

import faulty
import machine
from checks import add_tests
from faulty import Answer, UnderFaults, run_whole
from told_crashes import failing_traces, read_told, told, told_entries, words_of_entry, words_of_text, wrong_story
from traces import EXAMPLES

TRACES = 24
ORIGIN = 0xFF3


class Case:
    """A random trace, with its file and its pool's."""

    def __init__(self, folder, number):
        choose = random.Random(number)
        header, self.trace = machine.random_trace(choose)
        self.file = folder / f"{number}.trace"
        self.file.write_bytes(machine.text_of([header, *map(machine.spelled, self.trace.events)]))
        self.base = choose.randbytes(0x1000 + 3 * self.trace.size + 13 - ORIGIN)
        self.pool = folder / f"{number}.pool"
        self.pool.write_bytes(self.base)
        self.words = ["--pool", str(self.pool), "--origin", hex(ORIGIN)]

    def after(self, done):
        """The pool with these stores persisted."""
        pool = bytearray(self.base)
        for address, byte in self.trace.image(done):
            pool[address - ORIGIN] = byte
        return bytes(pool)

    def stored(self, line, place):
        return len(self.trace.stores(line, place))

    def address(self, line):
        return hex(line * self.trace.size)


def run(program, *words, text=b""):
    return run_whole(program, "image", *words, text=text)


def compare(complaints, words, answer, right):
    if answer != right:
        complaints.append(f"image {' '.join(map(str, words))}: {faulty.short(answer)}; wanted {faulty.short(right)}")


def every_image(program, case, place):
    """All counts that a run can end with at the place, each with every line named; the least and the greatest with none."""
    complaints = []
    lines = case.trace.lines(place)
    for done in case.trace.reached[place]:
        counts = dict(done)
        named = [f"--line={case.address(line)}:{counts.get(line, 0)}" for line in lines]
        words = ["--at", str(place), *named, *case.words, str(case.file)]
        compare(complaints, words, run(program, *words), Answer(0, case.after(done)))
    least = tuple((line, machine.least(case.trace, line, place)) for line in lines)
    greatest = tuple((line, case.stored(line, place)) for line in lines)
    for more, done in (([], least), (["--all"], greatest)):
        words = ["--at", str(place), *more, *case.words, str(case.file)]
        compare(complaints, words, run(program, *words), Answer(0, case.after(done)))
    return complaints


def told_of(trace, line):
    """The place that a line of a list tells, and how many stores of each line the crash leaves."""
    words = line.split()
    place, named = int(words[1]), words[2 + ("--all" in words) :]
    base = (lambda line: len(trace.stores(line, place))) if "--all" in words else (lambda line: machine.least(trace, line, place))
    counts = {line: base(line) for line in trace.lines(place)}
    for word, pair in zip(named[::2], named[1::2], strict=True):
        address, _, stores = pair.partition(":")
        if word != "--line" or int(address, 16) % trace.size:
            raise ValueError(line)
        counts[int(address, 16) // trace.size] = int(stores)
    return place, tuple(sorted(counts.items()))


def near(trace, place, off):
    """The crashes at a place where at most so many lines are off their least, or off their greatest number of stores."""
    least = {line: machine.least(trace, line, place) for line in trace.lines(place)}
    greatest = {line: len(trace.stores(line, place)) for line in trace.lines(place)}
    for done in map(dict, trace.reached[place]):
        if min(sum(done.get(line, 0) != bound[line] for line in bound) for bound in (least, greatest)) <= off:
            yield place, tuple(sorted((line, done.get(line, 0)) for line in least))


def turns(trace):
    """The places after a fence or a clflush, and those after a store, or at the beginning, with no store coming next."""
    names = ["begin", *(event[0] for event in trace.events), "end"]
    for place in range(len(trace.events) + 1):
        if names[place] in ("sfence", "mfence", "clflush") or (names[place] in ("begin", "store") and names[place + 1] != "store"):
            yield place


def every_list(program, case):
    """The crashes near all places, near some, and near those that are taken where none are given, each once; `image` takes each line."""
    complaints = []
    last, most = len(case.trace.events), len(case.trace.lines(len(case.trace.events)))
    asked = [(["--at", f"0-{last}", "--off", str(off)], range(last + 1), off) for off in (0, 1, most)]
    asked += [(["--at", f"{last},0-{last // 2},0"], {*range(last // 2 + 1), last}, 1), ([], turns(case.trace), 1), (["--off", str(most)], turns(case.trace), most)]
    for words, places, off in asked:
        answer = run(program, "--list", *words, str(case.file))
        lines = answer.out.decode().splitlines()
        found = [told_of(case.trace, line) for line in lines]
        wanted = sorted(crash for place in places for crash in near(case.trace, place, off))
        if (answer.status, answer.faults) != (0, b"") or sorted(found) != wanted or [place for place, _ in found] != sorted(place for place, _ in found):
            complaints.append(f"image --list {words} {case.file.name}: {faulty.short(answer)}; wanted {wanted}")
    for line, (_, done) in list(zip(lines, found))[:: max(1, len(lines) // 4)]:
        words = [*line.split(), *case.words, str(case.file)]
        compare(complaints, words, run(program, *words), Answer(0, case.after(done)))
    return complaints


def every_refusal(program, case, place):
    """Each line, and one that the trace does not have, with counts that no run ends with there."""
    complaints = []
    for line in [*case.trace.lines(place), 0x7000000]:
        least, greatest = machine.least(case.trace, line, place), case.stored(line, place)
        for count in range(greatest + 3):
            named = f"{hex(line * case.trace.size + case.trace.size - 1)}:{count}"
            words = ["--at", str(place), "--line", named, *case.words, str(case.file)]
            answer = run(program, *words)
            if least <= count <= greatest:
                if answer.status != 0:
                    compare(complaints, words, answer, Answer(0, b""))
                continue
            told = f"line {case.address(line)}: {count} stores asked, a crash leaves at least {least} and at most {greatest}\n"
            compare(complaints, words, answer, Answer(2, b"", told.encode()))
    return complaints


def violates(trace, number, done, place):
    """Whether the assertion does not hold with these stores persisted at the place."""
    event = trace.event(number)
    first = trace.last_stores(event[2], event[3], number)
    lost = not all(trace.is_persisted(done, store) for store in first)
    if event[0] == "isPersist":
        return place == number and lost
    second = trace.last_stores(event[4], event[5], number)
    return lost and any(trace.is_persisted(done, store) for store in second)


def every_failure(program, case):
    """Each failed assertion: the pool is one that violates it. One more is refused."""
    complaints = []
    trace = case.trace
    failing = [number for number in trace.numbers if trace.event(number)[0].startswith("is") and machine.verdict(trace, number).endswith("fail")]
    for number in failing:
        words = ["--failure", str(number), *case.words, str(case.file)]
        answer = run(program, *words)
        right = {case.after(done) for place in range(number + 1) for done in trace.reached[place] if violates(trace, number, done, place)}
        if answer.status != 0 or answer.out not in right:
            complaints.append(f"image {words}: {faulty.short(answer)} is no crash that violates event {number}")
    for number in {*range(1, len(trace.events) + 2)} - {*failing}:
        words = ["--failure", str(number), *case.words, str(case.file)]
        answer = run(program, *words)
        if (answer.status, answer.out) != (2, b"") or b"event %d is no assertion that a crash can violate" % number not in answer.faults:
            complaints.append(f"image {words}: {faulty.short(answer)}, and event {number} is no failed assertion")
    words = ["--at", str(len(trace.events) + 1), *case.words, str(case.file)]
    compare(complaints, words, run(program, *words), Answer(2, b"", b"place past end %d\n" % len(trace.events)))
    return complaints


def every_told_crash(program, case):
    """Of each failed assertion: the words that the JSON and the text tell, and the number of the failure, all give the crash that is told."""
    complaints = []
    failing = sorted(number for cause in told_entries(program, case, "cause") for number in cause["events"])
    if len(failing) != told_entries(program, case, "summary")[0]["failing"]:
        complaints.append(f"{case.file.name}: causes of {failing} are told alone")
    for number in failing:
        (entry,) = told_entries(program, case, "failure", "--failure", str(number))
        right = case.after(entry["place"], {int(line["cache_line"], 16) // case.size: line["persisted"] for line in entry["lines"]})
        text = told(program, case, "--failure", str(number))
        complaints += filter(None, [wrong_story(case, entry, text)])
        asked = [["--failure", str(number)], words_of_entry(entry), words_of_text(text)]
        for words in filter(None, asked):
            compare(complaints, words, run(program, *words, *case.words), Answer(0, right))
        for told_range in entry["ranges"]:
            start = int(told_range["address"], 16) - case.origin
            held = [None if store is None else right[start + at] for at, store in enumerate(told_range["stores"])]
            if held != told_range["values"]:
                complaints.append(f"{case.file.name}: event {number} is told to hold {told_range}, the crash leaves {held}")
    return complaints


TRACE = b"pmtrace 1\nstore 0 0x1004 0a0b\nclwb 0 0x1004\nsfence 0\nstore 0 0x1040 0c\nstore 0 0x1041 0d\n"


def small(folder, base):
    """A small trace with its pool beside it, and the name of the trace."""
    trace = folder / "small.trace"
    trace.write_bytes(TRACE)
    pathlib.Path(f"{trace}.base").write_bytes(base)
    pathlib.Path(f"{trace}.origin").write_bytes(b"0x1000\n")
    return str(trace)


def pool_with(base, stores):
    pool = bytearray(base)
    for at, data in stores:
        pool[at : at + len(data)] = data
    return bytes(pool)


def words_and_files(program):
    """The pool beside the trace, a named output, the pool from standard input's trace, pools that do not fit, wrong words."""
    complaints = []
    with tempfile.TemporaryDirectory() as name:
        folder = pathlib.Path(name)
        base = bytes(range(0x60))
        trace = small(folder, base)
        safe = pool_with(base, [(4, b"\x0a\x0b")])
        all_of = pool_with(safe, [(0x40, b"\x0c\x0d")])
        one = pool_with(safe, [(0x40, b"\x0c")])
        out = folder / "out.pool"
        judge = partial(judge_file, program, complaints, out)
        judge(["--at", "5", trace], Answer(0, safe), None)
        judge(["--at", "5", "--all", trace], Answer(0, all_of), None)
        judge(["--at", "5", "--all", "--line", "0x1041:2", "--line", "0x1040:1", trace], Answer(0, one), None)
        judge(["--at", "5", "--out", str(out), trace], Answer(0, b""), safe)
        beside = [f"{trace}.base", f"{trace}.origin"]
        judge(["--at", "5", "--pool", beside[0], "--origin", "0x1000"], Answer(0, safe), None, TRACE)
        # a pool that is its own output, and what stood in an output before a refusal
        judge(["--at", "5", "--out", beside[0], trace], Answer(4, b"", f"cannot create {beside[0]}: ".encode()), None)
        if pathlib.Path(beside[0]).read_bytes() != base:
            complaints.append("the pool was changed")
        out.write_bytes(b"kept")
        judge(["--at", "5", "--line", "0x1040:3", "--out", str(out), trace], Answer(2, b"", b"line 0x1040: 3 stores asked, a crash leaves at least 0 and at most 2\n"), b"kept", keep=True)
        for origin, size, event, address in ((0x1005, 0x60, 1, 0x1004), (0x1006, 0x60, 1, 0x1004), (0x1000, 5, 1, 0x1005), (0x1000, 4, 1, 0x1004), (0x1000, 0x40, 4, 0x1040), (0x1000, 0x41, 5, 0x1041), (0x2000, 0x60, 1, 0x1004), (0x1000, 0, 1, 0x1004)):
            (folder / "other").write_bytes(bytes(size))
            told = f"event {event} stores to {address:#x}, which lies outside of the pool: {size} bytes from {origin:#x} on\n".encode()
            words = ["--at", "5", "--pool", str(folder / "other"), "--origin", hex(origin), "--out", str(out), trace]
            judge(words, Answer(3, b"", told), b"kept", keep=True)
        # before the stores come, a pool that does not hold them does
        (folder / "other").write_bytes(b"")
        out.unlink()
        judge(["--at", "0", "--pool", str(folder / "other"), "--origin", "0x1000", "--out", str(out), trace], Answer(0, b""), b"")
        judge(["--at", "0", "--pool", str(folder), "--origin", "0x1000", trace], Answer(3, b"", f"{folder}: no file of a pool\n".encode()), None)
        pathlib.Path(beside[1]).write_bytes(b"1000\n")
        judge(["--at", "5", trace], Answer(3, b"", f"{beside[1]}: no address of a pool: ".encode()), None)
        pathlib.Path(beside[1]).unlink()
        judge(["--at", "5", trace], Answer(4, b"", f"cannot open {beside[1]}: ".encode()), None)
        pathlib.Path(beside[0]).unlink()
        judge(["--at", "5", "--pool", beside[0], "--origin", "0x1000", trace], Answer(4, b"", f"cannot open {beside[0]}: ".encode()), None)
        for words in (
            [],
            ["--at", "5"],
            ["--at", "05", trace],
            ["--failure", "0", trace],
            ["--failure", "1", "--at", "1", trace],
            ["--failure", "1", "--all", trace],
            ["--failure", "1", "--line", "0x1000:1", trace],
            ["--at", "5", "--line", "0x1000", trace],
            ["--at", "5", "--line", "1000:1", trace],
            ["--at", "5", "--line", "0x1000:01", trace],
            ["--at", "5", "--line", "0x1000000000000:1", trace],
            ["--at", "5", "--pool", "base", trace],
            ["--at", "5", "--origin", "0x1000", trace],
            ["--at", "5", "--pool", "base", "--origin", "0x1000000000000", trace],
            ["--at", "5", "--off", "1", trace],
            ["--at", "1-5", trace],
        ):
            judge(words, Answer(2, b"", b"error: "), None)
    return complaints


def lists(program, library):
    """A list by hand, wrong words, places past the end, and lists that can't be written or have no memory."""
    complaints = []
    with tempfile.TemporaryDirectory() as name:
        folder = pathlib.Path(name)
        trace = small(folder, b"")
        out = folder / "out.pool"
        judge = partial(judge_file, program, complaints, out)
        two, both = "--line 0x1040:1", "--line 0x1040:2"
        right = f"--at 1\n--at 1 --line 0x1000:1\n--at 3\n--at 5\n--at 5 {two}\n--at 5 {both}\n".encode()
        judge(["--list", trace], Answer(0, right), None)
        judge(["--list"], Answer(0, right), None, TRACE)
        judge(["--list", "--out", str(out), trace], Answer(0, b""), right)
        judge(["--list", "-o", "-", trace], Answer(0, right), None)
        judge(["--list", "--at", "6", "--out", str(out), trace], Answer(2, b"", b"place past end 5\n"), None)
        judge(["--list", "--out", "/dev/full", trace], Answer(4, b"", b"cannot write /dev/full: No space left on device\n"), None)
        judge(["--list", "--off", "0", trace], Answer(0, b"--at 1\n--at 1 --all\n--at 3\n--at 5\n--at 5 --all\n"), None)
        judge(["--list", "--at", "4,3-4", "--off", "18446744073709551615", trace], Answer(0, f"--at 3\n--at 4\n--at 4 {two}\n".encode()), None)
        judge(["--list"], Answer(0, b"--at 0\n"), None, b"pmtrace 1\n")
        judge(["--list", "--at", "6", trace], Answer(2, b"", b"place past end 5\n"), None)
        judge(["--list", "--at", "0-18446744073709551615", trace], Answer(2, b"", b"place past end 5\n"), None)
        judge(["--list", "--at", "18446744073709551616", trace], Answer(2, b"", b"place past end 5\n"), None)
        judge(["--list"], Answer(3, b"", b"standard input:2: "), None, b"pmtrace 1\nstore 0\n")
        judge(["--list", "/dev/null/none"], Answer(4, b"", b"cannot open /dev/null/none: "), None)
        others = (["--all"], ["--failure", "1"], ["--line", "0x1000:1"], ["--pool", trace], ["--origin", "0x0"])
        places = ("", ",", "1,", ",1", "1,,2", "-", "1-", "1-2-3", "5-3", "01", "1 2", "0x1", "1,x")
        for words in (*others, *(["--at", word] for word in places), *(["--off", word] for word in ("", "01", "x", "1.5"))):
            judge(["--list", *words, trace], Answer(2, b"", b"error: "), None)
        for kind in ("memory", "write", "nothing_taken"):
            for at in range(1, 2000):
                answer, failed = faulty.run(library, program, ["image", "--list", trace], fault=kind, fault_at=at, fault_piece=1)
                if failed == 0:
                    break
                status = 5 if kind == "memory" else 4
                if (answer.status, answer.out) != (0, right) and (answer.status != status or not right.startswith(answer.out) or answer.out == right):
                    complaints.append(f"list, {kind} {at}: {faulty.short(answer)}")
            if at < 4 or (answer.status, answer.out) != (0, right):
                complaints.append(f"list, {kind}: after {at} calls {faulty.short(answer)}")
    return complaints


def judge_file(program, complaints, out, words, right, written, text=b"", keep=False):
    """The answer, of whose faults the beginning is asked, and what the output file holds then."""
    answer = run(program, *words, text=text)
    told = answer._replace(faults=answer.faults[: len(right.faults)])
    if right.status == 2 and not right.faults.startswith(b"error: ") and answer.faults.count(b"\n") != 1:
        complaints.append(f"{words}: more than a line is told: {answer.faults}")
    compare(complaints, words, told if right.faults else answer, right)
    found = out.read_bytes() if out.exists() else None
    if found != written:
        complaints.append(f"{words}: the output holds {found}, wanted {written}")
    if out.exists() and not keep:
        out.unlink()


def devices(program, library, kind, to_file):
    """Reads or writes of a byte each, one of which fails: the first bytes are out; of a named output nothing stays."""
    complaints = []
    with tempfile.TemporaryDirectory() as name:
        folder = pathlib.Path(name)
        base = bytes(range(0x50))
        trace = small(folder, base)
        out = folder / "out.pool"
        right = pool_with(base, [(4, b"\x0a\x0b"), (0x40, b"\x0c\x0d")])
        words = ["image", "--at", "5", "--all", "--pool", f"{trace}.base", "--origin", "0x1000", *(["--out", str(out)] if to_file else []), trace]
        for at in range(1, 400):
            answer, failed = faulty.run(library, program, words, fault=kind, fault_at=at, fault_piece=1)
            if failed == 0:
                break
            shown = out.read_bytes() if out.exists() else answer.out
            # the trace is read first, as explain reads it, and then the pool
            named = str(out).encode() if to_file else b"the answer"
            told = {b"cannot read %s: Input/output error\n" % name.encode() for name in (trace, f"{trace}.base")}
            told |= {b"cannot write %s: %s\n" % (named, reason) for reason in (b"Input/output error", b"write zero")}
            if answer.status != 4 or answer.faults not in told or out.exists() or not right.startswith(shown) or shown == right:
                complaints.append(f"{kind} {at}: {faulty.short(answer)}, output {out.exists()}")
        written = out.read_bytes() if to_file and out.exists() else answer.out
        if at < len(base) or answer.status != 0 or written != right:
            complaints.append(f"{kind}: after {at} calls {faulty.short(answer)}, {written[:80]}")
    return complaints


def refused_memory(program, library):
    """Each request for memory, refused: nothing is out, and no output stays. Where it could be done without, all is out."""
    complaints = []
    with tempfile.TemporaryDirectory() as name:
        folder = pathlib.Path(name)
        trace = small(folder, bytes(range(0x50)))
        out = folder / "out.pool"
        words = ["image", "--at", "5", "--all", "--line", "0x1040:1", "--out", str(out), trace]
        whole = {}
        for at in range(1, 5000):
            out.unlink(missing_ok=True)
            answer, failed = faulty.run(library, program, words, fault="memory", fault_at=at)
            if answer.status == 0 and out.exists():
                whole[at] = out.read_bytes()
            elif answer.status != 5 or answer.out or out.exists():
                complaints.append(f"memory {at}: {faulty.short(answer)}, output {out.exists()}")
            if failed == 0:
                break
        if answer.status != 0 or not out.exists() or len(set(whole.values())) != 1:
            complaints.append(f"memory: after {at} calls {faulty.short(answer)}, {len(set(whole.values()))} images")
    return complaints


def large_pool(program):
    """A pool of 40 MB with stores in each part of it, and a full device."""
    complaints = []
    with tempfile.TemporaryDirectory() as name:
        folder = pathlib.Path(name)
        size = 40_000_003
        choose = random.Random(1)
        base = choose.randbytes(size)
        pool = folder / "pool"
        pool.write_bytes(base)
        places = sorted({0, 8, size // 8 * 8 - 8, *(16_777_216 * k + d for k in (1, 2) for d in (-8, 0, 8))})
        trace = folder / "trace"
        trace.write_text("pmtrace 1\n" + "".join(f"store 0 {0x10000000 + place:#x} {k + 1:02x}{k + 2:02x}\n" for k, place in enumerate(places)))
        right = pool_with(base, [(place, bytes([k + 1, k + 2])) for k, place in enumerate(places)])
        words = ["--at", str(len(places)), "--all", "--pool", str(pool), "--origin", "0x10000000"]
        answer = run(program, *words, str(trace))
        if answer.status != 0 or answer.out != right:
            complaints.append(f"a large pool: {faulty.short(answer)}")
        compare(complaints, words, run(program, *words, "--out", "/dev/full", str(trace)), Answer(4, b"", b"cannot write /dev/full: No space left on device\n"))
        if not pathlib.Path("/dev/full").exists():
            complaints.append("the device was removed")
    return complaints


class Images(UnderFaults):
    """Runs of the program, made side by side; a check is of a trace, of a place in it, or of a device."""

    def random_cases(self):
        folder = self.new_folder()
        return [(f"trace {number}", Case(folder, number)) for number in range(TRACES)]

    def test_images(self):
        """Every crash of random traces."""
        self.expect_at_each_place(every_image)

    def test_refusals(self):
        """Every count that no crash of them leaves."""
        self.expect_at_each_place(every_refusal)

    def expect_at_each_place(self, judge):
        calls = []
        for name, case in self.random_cases():
            places = range(len(case.trace.events) + 1)
            calls += [(f"{name} at {place}", partial(judge, self.program, case, place)) for place in places]
        self.expect_of_all(calls)

    def test_lists(self):
        self.expect_of_all([(name, partial(every_list, self.program, case)) for name, case in self.random_cases()])

    def test_failures(self):
        self.expect_of_all([(name, partial(every_failure, self.program, case)) for name, case in self.random_cases()])

    def check_told_crashes(self, file):
        self.expect_of_all([(file.name, partial(every_told_crash, self.program, read_told(self.new_folder(), file)))])

    def test_told_crashes(self):
        folder = self.new_folder()
        files = failing_traces(folder, TRACES)
        self.expect_of_all([(file.name, partial(every_told_crash, self.program, read_told(folder, file))) for file in files])

    def test_words_and_files(self):
        self.expect_of_all([("words and files", partial(words_and_files, self.program))])

    def test_large_pool(self):
        self.expect_of_all([("a large pool", partial(large_pool, self.program))])

    def test_refused_memory(self):
        self.expect_of_all([("refused memory", partial(refused_memory, self.program, self.library))])

    def test_lists_by_hand(self):
        self.expect_of_all([("lists", partial(lists, self.program, self.library))])

    def test_devices(self):
        """Reads and writes that fail, of standard output and of a file that is named."""
        kinds = [(kind, to_file) for kind in ("read", "write", "nothing_taken") for to_file in (False, True)]
        self.expect_of_all([(kind, partial(devices, self.program, self.library, *kind)) for kind in kinds])


add_tests(Images, Images.check_told_crashes, {f"crashes_of_{file.stem}": file for file in sorted(EXAMPLES.glob("*.trace"))})
