"""What the recorder for C does in programs that do it no favour: each says what must be in the trace and on standard error."""
import ctypes
import os
import re
import signal
import subprocess

from checks import add_tests
from recording import AS_CPP, COMPILERS, PROGRAMS, SANITIZED, Recording, events_of, need_compiler, text_of
from running import run_as_shown

PAGE = 4096
JUMPED = "the trace ends after event 1: a call was left by a jump, or a signal handler came into it"
WAITED = "the trace ends after event 1: a call of another thread did not return for ten seconds"
UNMAPPED = "a watched pool was unmapped, protected or cut off without pmtrace_forget; plain stores since the last look are not in the trace"
OTHERWISE = (
    "a watched pool was changed by other means than its mappings; this stands at the end of the trace "
    "(PMTRACE_WATCH=all looks at everything each time)"
)
OF_CHILD = "what this child of fork does to the pool is not in the trace"
ONE_STORED = "store 0 0x0 01"


def flushes(first, length):
    return [f"clwb 0 {line:#x}" for line in range(first, first + length, 64)]


# What touch_pages of watching.c does.
TOUCHED = [
    event
    for value in ("01", "02")
    for page in range(0, 16 * PAGE, PAGE)
    for event in (f"store 0 {page + 8:#x} {value}", f"clwb 0 {page:#x}", "sfence 0")
]

# Of each case of pools.c: the events, what is told, and what pmtrace_close answers.
POOLS = {
    "several": (
        ["store 0 0x8 01", "store 0 0x10000001000 02", "store 0 0x20000000018 03", "clwb 0 0x10000001000", "sfence 0",
         "isOrderedBefore 0 0x10000001000 1 0x8 1"], [], 0),
    "twice": (["store 0 0x64 01", "store 0 0x1007 02", "clwb 0 0x40", "sfence 0", "isPersist 0 0x0 4096", "isPersist 0 0x1000 4096"], [], 0),
    "growing": (
        [ONE_STORED, "store 0 0x40 03", *flushes(0, PAGE), "store 0 0x10000000000 02", "store 0 0x2000 04", "sfence 0"], [], 0),
    "in-place": (["store 0 0x63 02", "store 0 0x1000 01"], [], 0),
    "locks": ([ONE_STORED], [], 0),
    # the first range begins at 0x24 of its line: address 0x400 is the place 1088 of the memory
    "seam": (["store 0 0x402 020202020202", "store 0 0x408 0202020202020202", "store 0 0x410 020202020202", "clwb 0 0x400"], [], 0),
    "apart": (["store 0 0x3e0 01", "store 0 0x3f0 02"], [], 0),
    "unnoticed": (
        ["store 0 0x1080 03", "store 0 0x8 01", "clwb 0 0x0", "store 0 0x40 04", "store 0 0x1000 02", "sfence 0"], [], 0),
    "replaced": ([ONE_STORED, "store 0 0x10000000000 02"], [], 0),
    "remade": ([ONE_STORED, "store 0 0x10000000000 02", "store 0 0x20000000000 03"], [], 0),
    "private": (
        ["isPersist 0 0x0 1"],
        ["1 bytes at A are not all in the pool (4096 bytes at A); what is outside is not recorded", "1 calls reached outside the pool"], -1),
}

# Of each case of watching.c.
WATCHING = {
    "at-once": ([ONE_STORED, "store 0 0x40 01", "clflush 0 0x0", "isOrderedBefore 0 0x0 8 0x40 8"], [], 0),
    "unmapped": ([ONE_STORED, "clwb 0 0x0", "sfence 0"], [UNMAPPED], -1),
    "forgotten": ([ONE_STORED, "clwb 0 0x0", "sfence 0", "store 0 0x1 02"], [], 0),
    "cut": (["sfence 0"], [UNMAPPED], -1),
    "protected": ([ONE_STORED, "clwb 0 0x0", "sfence 0", "sfence 0"], [UNMAPPED], -1),
    "read": (["store 0 0x40 776f7264", "clwb 0 0x40", "sfence 0"], [], 0),
    "pages": (TOUCHED, [], 0),
}

# Of each case of processes.c.
PROCESSES = {
    "store": (
        ["store 0 0x8 0200000000000000"],
        [OF_CHILD, "2 calls of children that fork made reached the pool and are not in the trace"], -1),
    "plain": (["store 0 0x10 03"], [OTHERWISE], -1),
    "unseen": (
        [f"store 0 0x0 {value:02x}00000000000000" for value in range(50)],
        [OF_CHILD, "50 calls of children that fork made reached the pool and are not in the trace"], -1),
    "own": (["store 0 0x8 0200000000000000"], ["another recorder has it open; nothing is recorded"], 0),
}

# What atomics.c does; small integers are in the trace by their bytes.
ATOMICS = [
    "0x0 01000000", "0x0 ffffffff", "0x8 fd", "0x8 fe", "0x9 81", "0x9 80", "0x9 7f", "0xa 3412", "0xc 01000000", "0xc 02000000",
    "0xc 05000000", "0x10 0000000000000440", "0x10 0000000000000c40", "0x18 0000000000000000", "0x20 0300000000000000",
    "0x28 0400000000000000", "0x20 0500000000000000", "0x28 0600000000000000",
]
# and of the type that the language has for them, and of a call within a call
ATOMIC_TYPES = [f"0x50 {value:02x}00000000000000" for value in (7, 8, 9, 10)] + ["0x60 0200000000000000", "0x58 0100000000000000"]
ENTRIES = ["0x30 0100000000000000", "0x38 0900000000000000", "0x40 0200000000000000", "0x48 0900000000000000"]


def words_of(first, data):
    """The stores of bytes that begin at a word."""
    return [f"store 0 {first + at:#x} {data[at:at + 8].hex()}" for at in range(0, len(data), 8)]


def line_of(inner, at=8):
    """A line that is zero but for some bytes."""
    return bytes(at) + bytes(inner) + bytes(64 - at - len(inner))


WORK = ["store 0 0x0 07", "clwb 0 0x0", "sfence 0", "isPersist 0 0x0 4096"]
NO_ROOM = "; pmtrace_stop or PMTRACE_START leaves it out"
# Of each case of windows.c. Of the lines that are not safe all words are noted.
WINDOWS = {
    "format": (WORK, [], 0),
    "unsafe": (
        [*words_of(0x40, line_of([99] + [11] * 7)), *words_of(0x80, line_of([12] * 8)), *words_of(0xC0, line_of([13] * 8)),
         "clwb 0 0x80", "clwb 1 0xc0", "isPersist 0 0x0 64", "isPersist 0 0x40 64", "isPersist 0 0x80 64", "sfence 0", "isPersist 0 0x80 64",
         "isPersist 0 0xc0 64", "isPersist 0 0x100 64"], [], 0),
    "order": (
        [ONE_STORED, *words_of(0x40, line_of([2], 0)), "clflush 0 0x40"],
        ["1 claims of order about what was stored last before the window are not in the trace"], -1),
    "plain": ([*words_of(0x40, line_of([2], 0)), "store 0 0x80 03"], [], 0),
    "fill": (
        WORK,
        ["the trace ends after event 4: PLACE: a store of 16777216 bytes takes 2097152 events, and there is room for 999996" + NO_ROOM,
         "2097156 later events are not in the trace"], -1),
    "fill-unsafe": (
        [],
        ["the trace ends after event 0: PLACE: what was stored outside the window, of 16777216 bytes takes 2359296 events, "
         "and there is room for 1000000" + NO_ROOM, "4 later events are not in the trace"], -1),
}


def round_of(number):
    """What a round of windows.c makes."""
    at = 64 * number
    return [*words_of(at, bytes([number + 1] * 16)), f"clwb 0 {at:#x}", "sfence 0", f"isPersist 0 {at:#x} 16",
            f"store 0 0x400 {number:02x}", "sfence 0"]


ROUNDS = [event for number in range(5) for event in round_of(number)]
# What the environment asks of `rounds`, and what then stands in the trace. The call that makes the named event is whole.
BY_ENVIRONMENT = [
    ({"PMTRACE_STOP": "8"}, ROUNDS[:9]),
    ({"PMTRACE_START": "7"}, [*words_of(0x400, bytes(64)), *ROUNDS[7:]]),
    ({"PMTRACE_START": "15", "PMTRACE_STOP": "20"},
     [*words_of(0x80, line_of([3] * 16, 0)), *words_of(0x400, line_of([1], 0)), *ROUNDS[16:20]]),
]


def tells_of_pages():
    """Whether the system tells which pages changed: Linux 6.7, where userfaultfd(2) is allowed."""
    version = tuple(int(number) for number in re.findall(r"\d+", os.uname().release)[:2])
    return version >= (6, 7) and ctypes.CDLL(None).syscall(323, 1) >= 0


class CaseTests(Recording):
    """Programs of tests/recorders/programs, and what each case of them must record and tell."""

    def told(self, text, trace):
        """The recorder's own lines on standard error, and what pmtrace_close answered."""
        text = text.replace(str(trace), "TRACE").replace("TRACE.child", "TRACE")
        text = re.sub(r"\S*/[\w.]+:\d+", "PLACE", re.sub("0x[0-9a-f]+", "A", text))
        lines = [re.sub("^pmtrace: (TRACE: )?", "", line) for line in text.splitlines() if line.startswith("pmtrace: ")]
        return lines, [int(answer) for answer in re.findall(r"closed (-?\d+)", text)]

    def case(self, name, words, trace, wanted, **options):
        events, lines, answer = wanted
        status, text = run_as_shown([str(word) for word in words], **options)
        self.expect(f"{name}: it ends", status == 0, f"{status} {text}")
        self.expect(f"{name}: what is told", self.told(text, trace) == (lines, [answer]), text)
        made = text_of(trace).splitlines()[1:]
        self.expect(f"{name}: the trace", made == events, f"{made[:40]}")
        self.report(trace)

    def cases(self, name, program, table, more=()):
        for number, (case, wanted) in enumerate(table.items()):
            trace = self.folder / f"{name}.{case}.trace"
            words = [word.replace("NUMBER", str(number)) for word in more]
            self.case(f"{name} {case}", [program, trace, *words, case], trace, wanted)

    def with_compiler(self, name):
        """All cases that end well, as one compiler makes them."""
        compiler = {**COMPILERS, **SANITIZED}[name]
        files = str(self.folder / f"{name}.NUMBER.file")
        self.cases(f"pools.{name}", self.in_c("pools", compiler, f".{name}"), POOLS, [files])
        watching = self.in_c("watching", compiler, f".{name}")
        self.cases(f"watching.{name}", watching, WATCHING, [files])
        self.meanwhile(name, watching)
        self.written(name, watching)
        self.cases(f"processes.{name}", self.in_c("processes", compiler, f".{name}"), PROCESSES)
        self.atomics(name, self.in_c("atomics", compiler, f".{name}"))
        self.numbers(name, self.in_c("numbers", compiler, f".{name}"))

    def meanwhile(self, name, program):
        """Each value that is noticed is one that the other thread stored."""
        trace = self.folder / f"meanwhile.{name}.trace"
        status, text = run_as_shown([program, trace, self.folder / f"meanwhile.{name}", "meanwhile"])
        stores = [fields for fields in events_of(trace) if fields[0] == "store"]
        values = {fields[3] for fields in stores}
        right = (status, text) == (0, "closed 0\n") and values <= {"ff" * 8, "00" * 8} and {fields[2] for fields in stores} <= {"0x0"}
        self.expect(f"watching.{name} meanwhile", right, f"{status} {text} {values}")

    def written(self, name, program):
        """A write(2) to the pool's file is found in the end, or each time where that is asked."""
        late, early = [ONE_STORED, "clwb 0 0x0", "sfence 0", "store 0 0x1388 6162"], [ONE_STORED, "clwb 0 0x0", "store 0 0x1388 6162", "sfence 0"]
        trace = self.folder / f"written.{name}.trace"
        words = [program, trace, self.folder / f"written.{name}", "written"]
        self.case(f"watching.{name} all", words, trace, (early, [], 0), known={"PMTRACE_WATCH": "all"})
        status, text = run_as_shown(words)
        made = text_of(trace).splitlines()[1:]
        # where the system doesn't tell which pages changed, all are looked at
        right = (made, self.told(text, trace)) in ((late, ([OTHERWISE], [-1])), (early, ([], [0])))
        self.expect(f"watching.{name} written", status == 0 and right, f"{made} {text}")

    def atomics(self, name, program):
        texts = []
        for number in range(2):
            trace = self.folder / f"atomics.{name}.{number}.trace"
            status, text = run_as_shown([program, trace])
            self.expect(f"atomics.{name}", (status, text) == (0, ""), f"{status} {text}")
            texts.append([event.removeprefix("store 0 ") for event in text_of(trace).splitlines()[1:]])
        first, last = len(ATOMICS), len(ATOMICS) + len(ENTRIES)
        self.expect(f"atomics.{name}: the sizes", all(text[:first] == ATOMICS for text in texts), texts[0])
        self.expect(f"atomics.{name}: the types", all(text[last:] == ATOMIC_TYPES for text in texts), texts[0][last:])
        if name.startswith("g"):
            self.expect(f"atomics.{name}: bytes between fields are zero", all(text[first:last] == ENTRIES for text in texts), texts[0])

    def numbers(self, name, program):
        """A thousand threads one after another. One in 250 leaves a flush open, and its number is not given again."""
        trace = self.folder / f"numbers.{name}.trace"
        status, text = run_as_shown([program, trace])
        wanted = ["store 0 0x0 0100000000000000"]
        for number in range(1, 1001):
            thread = 1 + (number - 1) // 250
            wanted += [f"store {thread} 0x8 {number.to_bytes(8, 'little').hex()}", f"clwb {thread} 0x0"]
            wanted += [f"sfence {thread}"] * (number % 250 != 0)
        self.expect(f"numbers.{name}", (status, text) == (0, "") and text_of(trace).splitlines()[1:] == wanted, f"{status} {text}")

    def test_windows_leave_the_rest_out(self):
        program = self.in_c("windows", COMPILERS["gcc"], ".gcc")
        self.cases("windows", program, WINDOWS)
        for number, (variables, wanted) in enumerate(BY_ENVIRONMENT):
            trace = self.folder / f"rounds.{number}.trace"
            self.case(f"windows {variables}", [program, trace, "rounds"], trace, (wanted, [], 0), known=variables)
            beside, closed = trace.with_name(f"{trace.name}.cut"), "the window was closed here, and events came after it"
            said = text_of(beside) == (f"{len(wanted)} {closed}\n" if "PMTRACE_STOP" in variables else "")
            self.expect(f"windows {variables}: the end", said, text_of(beside))
        status, text = run_as_shown([program, self.folder / "none.trace", "rounds"], {"PMTRACE_START": "7x"})
        self.expect("a window that is no number", status == 1 and "PMTRACE_START=7x is no number of events" in text, text)

    def test_calls_that_never_return(self):
        """Calls and programs that are left in other ways than by return."""
        program = self.in_c("leaving", COMPILERS["gcc"], ".gcc")
        for case in ("cancel", "cancel-at-once"):
            trace = self.folder / f"{case}.trace"
            status, text = run_as_shown([program, trace, case])
            self.expect(f"leaving {case}", (status, text) == (0, "closed 0\n"), f"{status} {text}")
            events = text_of(trace).splitlines()[1:]
            self.expect(f"leaving {case}: the last events", len(events) >= 50 and events[-2:] == ["clwb 0 0x0", "sfence 0"], events[-3:])
        for case, why in (("fault", JUMPED), ("fault-in-thread", WAITED)):
            trace = self.folder / f"{case}.trace"
            self.case(f"leaving {case}", [program, trace, case], trace, ([ONE_STORED], [why, "2 later calls are not in the trace",
                      "none.trace: a call never returned; nothing is recorded"], -1))
        for case, wanted in (("quick-exit", 3), ("kill", -signal.SIGKILL), ("leave", 0)):
            trace = self.folder / f"{case}.trace"
            status, _ = run_as_shown([program, trace, case])
            if case != "quick-exit":
                self.cut_last_line(trace)
            self.expect(f"leaving {case}", (status, text_of(trace)) == (wanted, f"pmtrace 2 64\n{ONE_STORED}\n"), f"{status}")

    def cut_last_line(self, trace):
        """What the page tells to do about a trace whose program was killed."""
        status, told = run_as_shown([self.program, "check", trace])
        self.expect(f"{trace.name} is refused", status == 3 and "truncated" in told, told[:100])
        subprocess.run(["sed", "-i", "$d", trace], check=True)

    def test_destructors_are_recorded(self):
        built, trace = self.folder / "destructors", self.folder / "destructors.trace"
        self.expect_built(built, [*AS_CPP, PROGRAMS / "destructors.cpp", "-o", built])
        status, text = run_as_shown([built, trace])
        events = ["store 0 0x0 0100000000000000", "store 0 0x40 0100000000000000", "clwb 0 0x0", "clwb 0 0x40", "sfence 0"]
        told = self.told(text, trace)[0]
        self.expect("destructors: the shutdown is recorded", (status, text_of(trace).splitlines()[1:]) == (0, events), text)
        self.expect("destructors: what is too late is told", told == ["what comes after the end of the program is not in the trace"], text)
        for compiler in (AS_CPP, COMPILERS["clang++"]):
            need_compiler(compiler[0])
            status, text = run_as_shown([*compiler, "-c", PROGRAMS / "nontrivial.cpp", "-o", self.folder / "nontrivial.o"])
            self.expect("nontrivial.cpp is refused", status != 0 and "this type is not copied by its bytes" in text, text[:300])

    def test_plugin_that_is_unloaded(self):
        """A library that has the recorder, and is unloaded before its threads and the program end."""
        compiler = COMPILERS["gcc"]
        host, plugin, trace = self.folder / "host", self.folder / "plugin.so", self.folder / "plugin.trace"
        self.expect_built(plugin, [*compiler, "-fPIC", "-shared", PROGRAMS / "plugin.c", "-o", plugin], [*compiler, PROGRAMS / "host.c", "-o", host, "-ldl"])
        status, text = run_as_shown([host, plugin, trace])
        wanted = ["store 0 0x0 0100000000000000", "clwb 0 0x0", "sfence 0", "store 1 0x0 0200000000000000", "clwb 1 0x0", "sfence 1"]
        right = (status, text, text_of(trace).splitlines()[1:]) == (-signal.SIGTERM, "", wanted)
        self.expect("a plugin that is unloaded", right, f"{status} {text}")

    def test_a_store_is_no_system_call(self):
        """A store costs less than a write(2); a watched persist looks at the pages that changed, where the system tells which."""
        program = self.in_c("cost", COMPILERS["gcc"], ".cost", ["-O2"])
        # other programs run beside these, so that one try of five is enough
        for _ in range(5):
            times = self.times(program)
            (stores, writes, persists), (_, _, looks) = times
            cheap = 0 < stores < writes, 0 < 10 * persists < looks or not tells_of_pages()
            if all(cheap):
                break
        self.expect("cost: a store is no system call", cheap[0], times)
        self.expect("cost: pages that changed", cheap[1], times)

    def times(self, program):
        """What the program tells, as it is and with all pages watched."""
        times = []
        for variables in ({}, {"PMTRACE_WATCH": "all"}):
            words = [program, self.folder / "cost.trace", self.folder / "cost.pool"]
            status, text = run_as_shown(words, variables)
            self.expect("cost", status == 0 and len(text.split()) == 3, text)
            times.append([int(word) for word in text.split()] if status == 0 else [0, 0, 0])
        (stores, writes, persists), (_, _, looks) = times
        print(f"a recorded store takes {stores} ns, a write {writes}; a watched persist {persists}, {looks} with all pages")
        return times


add_tests(CaseTests, CaseTests.with_compiler, {f"cases_{name}": name for name in (*COMPILERS, *SANITIZED)})
