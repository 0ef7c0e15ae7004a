"""pmtrim-record: what it does not record is counted, and stands beside the trace for good; what it records has its own addresses."""
import re
import signal

from program import TOP
from recorded import Recorded
from recording import events_of
from running import run

SOURCE = TOP / "tests/recorders/unseen/unseen.c"
MARK = "0 the run was killed, or is not over: later events are missing, and what else is was not counted\n"


class Unseen(Recorded):
    """Programs that do to their pools what no store shows."""

    def setUp(self):
        super().setUp()
        self.unseen = self.build(SOURCE)

    def beside(self, ending):
        """What the file beside the trace says; None where there is none."""
        path = self.trace.with_name(f"trace.{ending}")
        return path.read_text() if path.exists() else None

    def test_far(self):
        """Bytes from 1 TiB on have no address, and another pool's never."""
        done = self.record("--base", self.unseen, "far", self.pool)
        addresses = {int(fields[2], 16) for fields in events_of(self.trace) if fields[0] == "store"}
        self.expect_equal("stores", (done.status, addresses), (0, {(2 << 40) + 5}))
        verdicts = re.findall(r"^persist \d+ (\w+)$", run([self.program, "check", self.trace]).out, re.M)
        self.expect_equal("the claim on the third pool", verdicts, ["pass"])
        what = "mappings and writes of bytes of a file from 1 TiB on"
        self.expect("told", f"not recorded: {what}: 1;" in done.err, done.err)
        self.expect_equal("beside the trace", self.beside("missing"), f"others 1 {what}\n")

    def test_code(self):
        """Code in a pool that is stored anew runs anew."""
        done = self.record(self.unseen, "code", self.pool)
        self.expect_equal("code", (done.status, done.out), (0, "123\n"))

    def test_memory(self):
        done = self.record(self.unseen, "memory", self.pool)
        self.expect("/proc/self/mem", done.status == 0 and "not recorded" not in done.err, done.err)
        self.is_file("/proc/self/mem")
        self.expect_equal("/proc/self/mem: nothing is missing", (self.beside("missing"), self.beside("cut")), (None, None))

    def test_counted(self):
        """What may have written to the pool is told, also when the line on standard error is lost."""
        frames = "frames of signal handlers on a stack in a pool, of which Valgrind writes a part"
        calls = "calls of the system that may have written to a pool's file"
        for kind, what in (("frame", frames), ("other", calls)):
            done = self.record(self.unseen, kind, self.pool)
            found = re.search(f"not recorded: {re.escape(what)}: (\\d+);", done.err)
            self.expect(f"{kind}: told", found, done.err)
            self.expect_equal(f"{kind}: beside the trace", self.beside("missing"), f"bytes {found and found[1]} {what}\n")
        self.record(self.unseen, "memory", self.pool)
        self.expect_equal("a trace of that name anew", self.beside("missing"), None)

    def test_killed(self):
        """A mark that is made at the start goes at the end."""
        done = self.record(self.unseen, "killed", self.pool)
        self.expect_equal("killed", (done.status, self.beside("cut")), (-signal.SIGKILL, MARK))
        told = run([self.program, "explain", self.trace])
        self.expect("killed: what explain says first", "cut" in told.out.splitlines()[0] and "was killed" in told.out, told.out[:300])
        self.expect_equal("killed: a store that may be saved later", told.status, 0)
        self.record(self.unseen, "memory", self.pool)
        self.expect_equal("a trace of that name that ends", self.beside("cut"), None)


class Told(Recorded):
    """The last line of pmtrace.h says where the trace is, and what to type next, unless that is not wanted."""

    def test_pmtrace(self):
        program = self.build(TOP / "recorders/examples/list.c", "-I", TOP / "recorders/c")
        told = run(["env", "-u", "PMTRACE_QUIET", program], cwd=self.folder).err
        events = len(events_of(self.folder / "list.trace"))
        line = f"pmtrace: {events} events in list.trace; next: pmtrim explain --labels list.trace.labels list.trace\n"
        self.expect_equal("its last line", told, line)
        for name, value in (("PMTRACE_QUIET", "1"), ("PMTRACE_FOLDER", str(self.folder))):
            self.expect_equal(f"with {name}", run(["env", "-u", "PMTRACE_QUIET", f"{name}={value}", program], cwd=self.folder).err, "")
