"""Builds and runs programs with the recorders for C, C++, Rust and Python.

The program must accept every trace. What else must stand in it is written out here, or follows from what the programs of
tests/recorders/programs do, or is the memory's last bytes.
"""
import json
import re

from documents import expect_shown
from needs import need
from program import TOP
from recorder_cases import CaseTests  # noqa: F401  (the runner runs what stands here)
from recorder_faults import FaultTests  # noqa: F401
from recorder_parts import PartTests  # noqa: F401
from recorder_threads import ThreadTests  # noqa: F401
from recording import AS_C, AS_CPP, CARGO, HEADERS, PROGRAMS, Recording, labels_of, source_of, text_of
from running import run_as_shown
from screened import ROW

# What calls.c does. The pool begins 24 = 0x18 bytes into a line.
CALLS = """\
pmtrace 2 64
store 0 0x1d 616263
store 0 0x20 6465666768696a6b
store 0 0x28 6c6d6e6f70717273
store 0 0x30 74
store 0 0x1e 6162
store 0 0x20 63
store 0 0x40 ffffffffffffffff
store 0 0x48 ff
store 0 0x58 0100000002000000
store 0 0x5c 04030201
store 0 0x60 0300000000000000
store 0 0x60 0400000000000000
store 0 0x60 0001000000000000
clwb 0 0x0
clwb 0 0x40
clflushopt 0 0x0
clflushopt 0 0x40
clflush 0 0x40
sfence 0
mfence 0
clwb 0 0x40
sfence 0
isPersist 0 0x18 4096
isPersist 0 0x1018 4096
isPersist 0 0x2018 808
isOrderedBefore 0 0x18 4096 0x2728 4096
isOrderedBefore 0 0x1018 1 0x2728 4096
"""
# How many events its calls make, in order, by a piece of the source line.
CALLED = [
    (4, "pmtrace_memcpy(pool + 5"),
    (2, "pmtrace_memmove("),
    (2, "pmtrace_memset("),
    (1, "pmtrace_store(*pair"),
    (1, "pmtrace_store(pair->two"),
    (1, "pmtrace_exchange("),
    (1, "CHECK(pmtrace_compare_exchange("),
    (1, "pmtrace_fetch_add("),
    (2, "pmtrace_clwb(pool + 39"),
    (2, "pmtrace_clflushopt("),
    (1, "pmtrace_clflush("),
    (1, "pmtrace_sfence()"),
    (1, "pmtrace_mfence()"),
    (2, "pmtrace_persist("),
    (3, "pmtrace_is_persist("),
    (2, "pmtrace_is_ordered_before("),
]


class RecorderTests(Recording):
    """The header, its calls and its examples; the crate."""

    def test_header_is_what_its_parts_make(self):
        """pmtrace.h is what its parts make."""
        status, told = run_as_shown([HEADERS / "parts/join"])
        self.expect("pmtrace.h is made from its parts", status == 0 and told == text_of(HEADERS / "pmtrace.h"), told[:200])

    def test_each_call_is_recorded(self):
        for name, compiler, flags in (("c11", AS_C, ["-std=c11"]), ("cpp17", AS_CPP, [])):
            program, trace = self.in_c("calls", compiler, f".{name}", flags), self.folder / f"calls.{name}.trace"
            status, told = run_as_shown([program, trace])
            refused = (
                f"pmtrace: other.trace: another trace is open: {trace}; nothing is recorded here\n"
                f"pmtrace: {trace}: the trace has lines of another size; the 20000 bytes at A are not recorded\n"
            )
            told = re.sub("0x[0-9a-f]+", "A", told)
            self.expect(f"calls as {name}", (status, told) == (0, refused), f"{status} {told}")
            self.expect(f"the trace of calls as {name}", text_of(trace) == CALLS, text_of(trace))
            self.report(trace)
            labels = labels_of(trace).values()
            wanted = [piece for count, piece in CALLED for _ in range(count)]
            right = len(labels) == len(wanted) and all(piece in source_of(label) for piece, label in zip(wanted, labels))
            self.expect(f"the labels of calls as {name}", right and all(label.endswith(" main") for label in labels), labels)

    def test_off_costs_nothing(self):
        """Without the recorder the same instructions are there as by hand."""
        for name, compiler in (("c", AS_C), ("cpp", AS_CPP)):
            code = []
            for flags in ([], ["-DBY_HAND"]):
                made, plain = self.folder / f"off.{name}{len(flags)}.o", self.folder / f"off.{name}{len(flags)}.bin"
                to_plain = ["objcopy", "-O", "binary", "-j", ".text", made, plain]
                code.append(self.expect_built(plain, [*compiler, "-O2", *flags, "-c", PROGRAMS / "off.c", "-o", made], to_plain).read_bytes())
            self.expect(f"off costs nothing as {name}", code[0] and code[0] == code[1], "other instructions")

    def test_crate_passes_its_tests(self):
        need("cargo", "cargo")
        status, told = run_as_shown(["cargo", "test", *CARGO, self.folder], cwd=TOP / "recorders/rust")
        self.expect("the crate's tests", status == 0 and "1 passed" in told, told)

    # Examples

    def test_lost_node_of_list_is_found(self):
        for wrong in (False, True):
            self.example("list", wrong, "pmtrace_is_ordered_before(node")

    def test_early_mark_of_log_is_found(self):
        for wrong in (False, True):
            self.example("log", wrong, "pmtrace_is_ordered_before(place")

    def example(self, name, wrong, claim):
        """Built by the line that the example shows."""
        shown = re.findall(r"^ \*   (gcc .*?)  +the ", (TOP / f"recorders/examples/{name}.c").read_text(), re.M)[wrong]
        what = f"{name}, {'wrong' if wrong else 'right'}"
        words = shown.replace(f"-o {name} ", f"-o {self.folder / name} ").split(" ")
        self.expect(f"{what}: the line that builds it", ("-DWRONG" in words) == wrong, shown)
        built = run_as_shown([*words, "-Wall", "-Wextra", "-Werror"], cwd=TOP)
        self.expect(f"{what} is built", built == (0, ""), built)
        ran = run_as_shown([self.folder / name], cwd=self.folder)
        self.expect(f"{what} runs", ran == (0, ""), ran)
        trace = self.folder / f"{name}.trace"
        status, report = self.report(trace)
        labels = labels_of(trace)
        failed, lost = (
            [source_of(labels[int(number)]).strip() for number in re.findall(pattern, report, re.M)]
            for pattern in (r"^\w+ (\d+) fail$", r"^never-persisted (\d+) ")
        )
        if not wrong:
            self.expect(f"{what}: nothing fails", status == 0 and " pass\n" in report, report[-200:])
            return
        self.expect(f"{what}: the claim fails", status == 1 and failed and all(line.startswith(claim) for line in failed), failed[:3])
        if name == "list":
            right = len(lost) > 1000 and all(line.startswith("pmtrace_memcpy(node") for line in lost)
            self.expect(f"{what}: the node's copy is lost", right, lost[:3])
        else:
            self.expect(f"{what}: nothing is lost, only disordered", lost == [] and "persist" in report, lost[:3])
        self.explained(what, trace, "persist(node, sizeof node);" if name == "list" else "fence();")

    def explained(self, what, trace, fault):
        """The source lines between which `explain` puts the flush or fence have the line at fault between them."""
        words = [self.program, "explain", "--labels", f"{trace}.labels", trace]
        status, told = run_as_shown([*words, "--json"])
        failure = next((entry for entry in map(json.loads, told.splitlines()) if entry["kind"] == "failure"), None)
        self.expect(f"{what}: the failure is explained", status == 1 and failure is not None, told[:200])
        if failure is None:
            return
        after = failure["cause"]["flush"] if failure["cause"]["cause"] == "unfenced" else failure["lost"]["store"]
        before = failure["kept"]["store"]
        (file, first), (_, last) = (event["label"].partition(" ")[0].rsplit(":", 1) for event in (after, before))
        between = (TOP / file).read_text().splitlines()[int(first) : int(last) - 1]
        self.expect(f"{what}: the line at fault", len(between) < 6 and fault in map(str.strip, between), between)
        text = run_as_shown([*words, "--failure", failure["event"]["event"]])[1]
        rows = {int(row["event"]) for row in map(ROW.match, text.splitlines()) if row}
        self.expect(f"{what}: the text has these events", rows >= {event["event"] for event in (failure["event"], after, before)}, text)

    def test_page_shows_what_is_written(self):
        """The commands that recorders/README.md shows."""
        expect_shown(self, "recorders/README.md")
