"""What recorders do where a trace has to end, and where programs end: for C, Rust and Python."""
import re
import resource
import signal
import subprocess
import time

from checks import add_tests
from recording import PYTHON, Recording, events_of, text_of
from running import ended_by, run_as_shown, unignore

WORD_SAVED = "pmtrace 2 64\nstore 0 0x0 6120776f72642e2e\nclwb 0 0x0\nsfence 0\n"


class FaultTests(Recording):
    """Programs that do the case that they are told to: faults.c, faults.rs, faults.py."""

    def named(self, language):
        return f"faults.{language}", self.in_language("faults", language)

    def fault(self, name, program, case, limited=False):
        """Runs a case, and gives its trace, its status and what it wrote. Core files and endless files are not made."""

        def limit():
            resource.setrlimit(resource.RLIMIT_CORE, (0, 0))
            if limited:
                resource.setrlimit(resource.RLIMIT_FSIZE, (100000, 100000))

        trace = self.folder / f"{name}.{case}.trace"
        # restore_signals: a file that grows too long is an error of the write, and kills nobody
        status, told = run_as_shown([*program, trace, case], PYTHON, preexec_fn=limit, restore_signals=False)
        self.report(trace)
        return trace, status, told.replace(str(trace), "TRACE")

    def too_many_threads(self, language):
        name, program = self.named(language)
        trace, status, told = self.fault(name, program, "threads")
        later = "pmtrace: TRACE: 3 later events are not in the trace\n"
        wanted = f"pmtrace: TRACE: the trace ends after event 768: a trace has at most 256 threads, and here is the 257th\n{later}"
        numbers = [int(fields[1]) for fields in events_of(trace)]
        right = sorted(told.splitlines()) == sorted(f"{wanted}closed -1".splitlines())
        self.expect(f"{name}: the 257th thread", right and status == 0 and numbers == [number // 3 for number in range(768)], told)
        self.is_cut(f"{name}: the 257th thread", trace, "768 a trace has at most 256 threads, and here is the 257th\n")

    def too_many_events(self, language):
        name, program = self.named(language)
        trace, status, told = self.fault(name, program, "events")
        later = "pmtrace: TRACE: 125000 later events are not in the trace\n"
        wanted = f"pmtrace: TRACE: the trace ends after event 1000000: a trace has at most 1000000 events\n{later}"
        right = sorted(told.splitlines()) == sorted(f"{wanted}closed -1".splitlines())
        self.expect(f"{name}: a million events", right and status == 0 and text_of(trace).count("\n") == 1000001, told)
        self.is_cut(f"{name}: a million events", trace, "1000000 a trace has at most 1000000 events\n")
        moved = self.folder / f"{name}.moves.trace"
        run_as_shown([*program, moved.name, "moves"], PYTHON, cwd=self.folder)
        self.is_cut(f"{name}: in another folder", moved, "1000000 a trace has at most 1000000 events\n")

    def full_disk(self, language):
        name, program = self.named(language)
        trace, status, told = self.fault(name, program, "disk", limited=True)
        whole = "pmtrace 2 64\n" + "".join(f"store 0 {8 * at:#x} {f'{at // 512:02x}' * 8}\n" for at in range(51200))
        text = text_of(trace)
        ends = r"pmtrace: TRACE: the trace ends after event (\d+): File too large(?: \(os error \d+\))?\n"
        later = r"pmtrace: TRACE: (\d+) later events are not in the trace\n"
        ordered = sorted(told.splitlines(keepends=True), key=lambda line: ("closed" in line, "later" in line))
        told_right = re.fullmatch(f"{ends}{later}closed -1\n", "".join(ordered))
        self.expect(f"{name}: a full disk", told_right and 99900 < len(text) <= 100000 and whole.startswith(text), f"{told} {len(text)}")
        counted = told_right and (int(told_right[1]), int(told_right[1]) + int(told_right[2])) == (text.count("\n") - 1, 51200)
        self.expect(f"{name}: what is missing is counted", counted, told)
        reason = re.search("File too large.*", told)
        self.is_cut(f"{name}: a full disk", trace, f"{told_right and told_right[1]} {reason and reason[0]}\n")

    def no_event(self, language):
        name, program = self.named(language)
        trace, status, told = self.fault(name, program, "empty")
        self.expect(f"{name}: no event", (text_of(trace), told) == ("pmtrace 2 64\n", "closed 0\n"), told)
        self.is_cut(f"{name}: no event", trace, "0 no event came\n")

    def ends(self, language):
        """What was recorded is written when the program aborts or exits without closing; files that can't be written are told."""
        name, program = self.named(language)
        for case, wanted in (("abort", -signal.SIGABRT), ("exit", 3)):
            # of an earlier trace
            (self.folder / f"{name}.{case}.trace.cut").write_text("5 the disk was full\n")
            trace, status, told = self.fault(name, program, case)
            self.is_cut(f"{name}: {case}", trace, None)
            self.expect(f"{name}: {case}", (text_of(trace), status) == (WORD_SAVED, wanted), f"{status} {told}")
        for file in ("/dev/full", self.folder / "none/trace"):
            status, told = run_as_shown([*program, file, "abort"], PYTHON)
            reason = "No space left on device" if file == "/dev/full" else "No such file or directory"
            self.expect(f"{name}: {file}", reason in told and "not opened" in told, f"{status} {told}")

    def test_segfault(self):
        name, program = self.named("c")
        trace, status, told = self.fault(name, program, "segfault")
        self.expect(f"{name}: segfault", (text_of(trace), status) == (WORD_SAVED, -signal.SIGSEGV), f"{status} {told}")

    def test_fork(self):
        name, program = self.named("c")
        trace, status, told = self.fault(name, program, "fork")
        twice = WORD_SAVED + "".join(WORD_SAVED.splitlines(keepends=True)[1:])
        self.expect(f"{name}: fork", (text_of(trace), status, told) == (twice, 0, "closed 0\n"), f"{status} {told}")

    def test_opened_again(self):
        name, program = self.named("c")
        trace, status, told = self.fault(name, program, "again")
        self.expect(f"{name}: opened again", (text_of(trace), status, told) == (WORD_SAVED, 0, "closed 0\n"), f"{status} {told}")
        again = text_of(trace.with_name(trace.name + ".again"))
        self.expect(f"{name}: the second trace", again == "pmtrace 2 128\nstore 0 0xc8 05\nclwb 0 0x80\nsfence 0\n", again)

    def test_outside_in_c(self):
        name, program = self.named("c")
        trace, status, told = self.fault(name, program, "outside")
        wanted = "pmtrace 2 64\nstore 0 0x0 0202020202020202\nstore 0 0x895438 0303030303030303\n"
        self.expect(f"{name}: outside", (text_of(trace), status) == (wanted, 0), f"{status} {told}")
        told = re.sub("0x[0-9a-f]+", "A", told)
        first = "pmtrace: 16 bytes at A are not all in the pool (9000000 bytes at A); what is outside is not recorded"
        wanted = sorted([first, "pmtrace: TRACE: 5 calls reached outside the pool", "closed -1"])
        self.expect(f"{name}: outside is told once", sorted(told.splitlines()) == wanted, told)

    def test_killed_while_it_stores(self):
        """Threads are writing long stores when the signal comes; the trace ends behind a whole line each time.

        Without the recorder's care one in 27 ends inside a line, so there are a hundred.
        """
        name, program = self.named("c")
        deaths = [("signal", death, -death) for death in [signal.SIGTERM] * 100 + [signal.SIGINT, signal.SIGHUP]]
        deaths += [("handler", signal.SIGTERM, 4)] * 3
        for number, (case, death, wanted) in enumerate(deaths):
            trace = self.folder / f"{name}.{number}.killed.trace"
            streams = {"stdout": subprocess.PIPE, "stderr": subprocess.DEVNULL}
            with subprocess.Popen([*program, trace, case], preexec_fn=unignore, **streams) as running:
                running.stdout.readline()
                status = ended_by(death, running)
            self.report(trace)
            right = status == wanted and text_of(trace).startswith(WORD_SAVED)
            self.expect(f"{name}: {case} {death.name}", right, status)
            trace.unlink()

    def test_several_signals_at_once(self):
        """Signals come into one another's way: the program ends by one of them, and not after the ten seconds for which a call waits for
        another one; and the trace behind a whole line."""
        name, program = self.named("c")
        for number in range(40):
            trace = self.folder / f"{name}.{number}.twice.trace"
            streams = {"stdout": subprocess.PIPE, "stderr": subprocess.DEVNULL}
            with subprocess.Popen([*program, trace, "signal"], preexec_fn=unignore, **streams) as running:
                running.stdout.readline()
                for death in (signal.SIGTERM, signal.SIGTERM, signal.SIGINT):
                    running.send_signal(death)
                start = time.monotonic()
                status = running.wait(timeout=300)
                took = time.monotonic() - start
            self.report(trace)
            right = status in (-signal.SIGTERM, -signal.SIGINT) and took < 9
            self.expect(f"{name}: several signals", right and text_of(trace).startswith(WORD_SAVED), f"{status} {took}")
            trace.unlink()

    def outside(self, language):
        """The recorders of safe languages refuse what is outside."""
        name, program = self.named(language)
        trace, status, told = self.fault(name, program, "outside")
        self.expect(f"{name}: outside", (text_of(trace), status, told) == (WORD_SAVED, 0, "closed 0\n"), f"{status} {told}")


for check in (FaultTests.too_many_threads, FaultTests.too_many_events, FaultTests.full_disk, FaultTests.no_event, FaultTests.ends):
    add_tests(FaultTests, check, {f"{check.__name__}_{language}": language for language in ("c", "rs", "py")})
add_tests(FaultTests, FaultTests.outside, {f"outside_in_{language}": language for language in ("rs", "py")})
