"""Where pmtrim-record writes: media without room, traces that another run writes, and files that are no traces. The program is ends.c."""
import contextlib
import os
import resource
import signal
import subprocess

from recording import text_of
from running import run, wait_until
from valgrind_runs import RECORD, Recorded


class Places(Recorded):
    """Runs that must not begin, or not write, there."""

    def setUp(self):
        super().setUp()
        self.ends, self.pool = self.build("ends"), self.folder / "places.pool"
        self.pool.write_bytes(bytes(65536))

    def record_at(self, trace, *words, **more):
        """The status and what was told."""
        return run([RECORD, "--trace", trace, *(words or [self.ends, "saves", self.pool])], **more)[::2]

    def test_no_room_for_an_event(self):
        """No room for the first line, or for no more than that: no event is recorded, and the run goes on."""
        why = "no event is recorded: File too large\n"
        for room, head, cut in ((5, "", ""), (20, "pmtrace 2 64\n", "0 File too large\n")):
            trace = self.folder / f"full.{room}.trace"
            limit = lambda: resource.setrlimit(resource.RLIMIT_FSIZE, (room, room))
            status, told = self.record_at(trace, preexec_fn=limit, restore_signals=False)
            self.expect(f"room of {room} bytes: the program", (status, text_of(trace)) == (3, head), f"{status} {told}")
            self.is_cut(f"room of {room} bytes", trace, cut)
            right = f"{trace}: {why}" in told and f"pmtrim-record: 0 events of {'1 thread' if head else '0 threads'} in {trace}; " in told
            self.expect(f"room of {room} bytes: told", right and "events after the end of the trace: 3; no event could be written\n" in told, told)
            unwritten = f"{trace}.cut can't be written: there is no room for it\n" in told
            self.expect(f"room of {room} bytes: what is not written", unwritten == (cut == "") and "labels" not in told, told)
        status, told = self.record_at(self.folder / "full.one", "--one-trace", self.ends, "saves", self.pool, preexec_fn=limit, restore_signals=False)
        right = told.endswith("full.one.shared, which the processes of one trace share: File too large\n")
        self.expect("one trace of processes: nothing is left", (status, right, list(self.folder.glob("full.one*"))) == (2, True, []), told)

    def test_files_that_are_no_traces_stay(self):
        """A file that is no trace is not overwritten, by its first words; one that is empty, and an older trace, are."""
        folder, why = self.folder, "is there and is no trace: it is not overwritten\n"
        mark = folder / "others.mark"
        for name, text, status in (
            ("program", self.ends.read_bytes(), 2),
            ("pool", bytes(65536), 2),
            ("short", b"pmtrac", 2),
            ("word", b"pmtrace\n", 2),
            ("empty", b"", 3),
            ("first", b"pmtrace 1\nsfence 0\n", 3),
            ("second", b"pmtrace 2 64\n" + b"sfence 0\n" * 99, 3),
        ):
            place = folder / f"others.{name}"
            for words, there in (([], place), (["--seeds", "1"], folder / f"others.{name}.1"), (["--parts"], place)):
                there.write_bytes(text)
                found = self.record_at(place, *words, "--before", f"touch {mark}", self.ends, "saves", self.pool)
                told = status == 3 or found[1] == f"pmtrim-record: {there} {why}"
                self.expect(f"a file that is {name} {words}", found[0] == status and told, found)
                kept = there.exists() and there.read_bytes() == text and not mark.exists()
                self.expect(f"a file that is {name} {words}: it is kept", kept == (status == 2), kept)
                mark.unlink(missing_ok=True)

    @contextlib.contextmanager
    def running(self, *words):
        """A recorded run that lasts till the end."""
        with subprocess.Popen([str(word) for word in words], stdin=subprocess.PIPE, stdout=subprocess.PIPE, stderr=subprocess.PIPE) as run:
            self.expect("a run that lasts", run.stdout.readline() != b"", "it writes nothing")
            yield run
            run.kill()

    def test_a_trace_that_is_written_is_taken(self):
        """A trace that another run is writing, of one process or of several: the second run does not begin, and the trace is the first one's."""
        told = "another run is writing it: name another file with --trace\n"
        trace, mark = self.folder / "taken.trace", self.folder / "taken.mark"
        waits = [self.ends, "waits", self.pool]
        for first in ([], ["--one-trace"], ["--trace-children", "yes"]):
            with self.running(RECORD, *first, "--trace", trace, *waits):
                for second in (["--labels=no"], ["--one-trace"], ["--before", f"touch {mark}"], ["--parts"]):
                    status, faults = self.record_at(trace, *second, "touch", mark)
                    right = status == 2 and not mark.exists() and faults == f"pmtrim-record: {trace}: {told}"
                    self.expect(f"a trace that {first} writes, and {second}", right, f"{status} {faults}")
                self.expect(f"a trace that {first} writes goes on", wait_until(lambda: text_of(trace).count("\n") > 3000), text_of(trace)[:99])
            status, faults = self.record_at(trace)
            self.expect(f"a trace that {first} wrote", status == 3 and text_of(trace).count("\n") == 4, f"{status} {faults}")
        with self.running(RECORD, "--labels=no", "--trace", "/dev/null", *waits):
            status, faults = self.record_at("/dev/null", "--labels=no", self.ends, "saves", self.pool)
            self.expect("a device, which is no run's own", status == 3, faults)

    def test_a_process_that_lives_on_takes_no_trace(self):
        """A process that lives on when its run has ended, recorded or not, is no run that writes."""
        trace, number, told = (self.folder / f"left.{ending}" for ending in ("trace", "number", "told"))
        for words in ([], ["--one-trace"], ["--trace-children=yes"]):
            with told.open("w") as stream:
                left = ["sh", "-c", f"(while :; do sleep 1; done) & echo $! > {number}"]
                first = [RECORD, *words, "--trace", trace, *left]
                subprocess.run(first, stdin=subprocess.DEVNULL, stdout=stream, stderr=stream, timeout=300, check=False)
            status, faults = self.record_at(trace)
            self.expect(f"a process of {words} that lives on", status == 3 and text_of(trace).count("\n") == 4, f"{status} {faults}")
            os.kill(int(number.read_text()), signal.SIGKILL)
