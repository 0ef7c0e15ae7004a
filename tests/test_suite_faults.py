"""pmtrim-suite: what it says of runs that it can't judge, or not wholly, of wrong words, and when it is stopped."""
import os
import pathlib
import signal
import subprocess
import time

from checks import Checks
from suites import CLEAN, SUITE, files_in, put_program, put_run, suite


class Faults(Checks):
    """Each run that can't be judged has its line, and the greatest status counts."""

    def setUp(self):
        self.runs = self.new_folder()
        put_run(self.runs / "clean", CLEAN)

    def expect_line(self, name, line, status, *words, **options):
        told = suite("report", self.runs, *words, **options)
        self.expect(name, told.status == status and line in told.out, told)
        return told

    def test_refused(self):
        put_run(self.runs / "bad", ["store 0 0x7 0102"])
        self.expect_line("a trace", f"not judged: bad: {self.runs}/bad/trace:2: ", 3)
        put_run(self.runs / "bad", CLEAN, labels=["x.c:1\x01"])
        self.expect_line("labels", f"not judged: bad: {self.runs}/bad/trace.labels:1: ", 3)
        put_run(self.runs / "bad", CLEAN, labels=["x.c:1"], cut="some\n")
        self.expect_line("a file of where it was cut", f"not judged: bad: {self.runs}/bad/trace.cut:1: ", 3)

    def test_cut(self):
        """What is not persisted by the end of a trace that was cut is no finding; the cut is told, and fails where it is asked for."""
        put_run(self.runs / "short", ["store 0 0x40 01"], cut="1 a full disk\n")
        line = "cut: short: the trace was cut after event 1: a full disk"
        self.expect_line("told", line, 0)
        self.expect_line("and fails", line, 1, "--fail-on", "failure", "cut")
        put_run(self.runs / "short", ["store 0 0x40 01"], cut="")
        put_run(self.runs / "short-2", ["store 0 0x40 01", "sfence 0"], cut="2 another one\n")
        told = self.expect_line("without a line", "cut: short: the trace was cut: there was no room for more", 0)
        self.expect("each run has its own", "cut: short-2: the trace was cut after event 2: another one" in told.out, told)
        told = self.expect_line("the command that shows it", "show it     pmtrim explain", 1, "--fail-on", "cut")
        self.expect("it has no finding to tell of", "--only" not in told.out, told)

    def test_missing(self):
        """What the recorder saw and did not note: where bytes may be stored unseen no store is lost for good, and that is told as a cut is."""
        put_run(self.runs / "part", ["store 0 0x40 01"], missing="others 2 flushes\nbytes 3 children\nbytes 1 call\n")
        told = self.expect_line("bytes", "cut: part: bytes may have been stored or saved unseen: 3 children, 1 call", 0)
        self.expect("no store is lost for good", "never_persisted" not in told.out and "flushes" not in told.out, told)
        self.expect_line("and fails", "new: cut at (part)", 1, "--fail-on", "cut")
        put_run(self.runs / "part", ["store 0 0x40 01"], missing="")
        self.expect_line("without a line", "cut: part: bytes may have been stored or saved unseen: the recorder had no room to say what", 0)
        put_run(self.runs / "part", ["store 0 0x40 01"], missing="fences 2 locks\n")
        told = self.expect_line("fences", "aside: part: fences may have come unseen, so a failure may be a false alarm: 2 locks", 1)
        self.expect("a store is lost for good", "never_persisted" in told.out and "cut: " not in told.out, told)
        (self.runs / "part/trace.missing").unlink()
        self.expect_line("nothing", "1 cause, 1 new", 1)

    def test_hints(self):
        """A hint is no failure, but where it is asked for."""
        put_run(self.runs / "open", ["store 0 0x0 01", "clwb 0 0x0", "store 0 0x40 01", "clwb 0 0x40", "sfence 0"], [f"x.c:{number} f" for number in range(1, 6)])
        self.expect_line("counted", "causes that don't fail a report: 1 hint; ", 0)
        told = self.expect_line("and fails", "new: hint (open_at_store) at x.c:2 f", 1, "--fail-on", "hint")
        self.expect("what it is", "event       event 2 at x.c:2 f: clwb 0 0x0\n" in told.out and "--only hint --from 2 --to 2 " in told.out, told)

    def test_empty(self):
        put_run(self.runs / "none", [], cut="0 no event came\n")
        self.expect_line("told", "empty: none: no event came", 0)
        self.expect_line("and fails", "new: empty at (none)", 1, "--fail-on", "empty")

    def test_files(self):
        (self.runs / "lost").mkdir()
        (self.runs / "lost/command").write_text("./lost\n")
        self.expect_line("a folder without its trace", f"{self.runs}/lost: there is no trace in this folder", 4)
        (self.runs / "lost/trace").symlink_to("nowhere")
        self.expect_line("a link to nothing", f"not judged: lost: {self.runs}/lost/trace: No such file", 4)
        (self.runs / "lost/trace").unlink()
        os.mkfifo(self.runs / "lost/trace")
        self.expect_line("a pipe", "this is no regular file", 4)
        (self.runs / "lost/trace").unlink()
        put_run(self.runs / "lost", ["store 0 0x7 0102"])
        (self.runs / "void").mkdir()
        put_run(self.runs / "bell\a\nline", ["store 0 0x7 0102"])
        self.expect_line("a name that a terminal would obey", "not judged: bell??line: ", 4)
        told = self.expect_line("and the greatest status counts", f"{self.runs}/void: there is no trace", 4)
        self.expect("all are told", "not judged: lost: " in told.out, told)
        (self.runs / ".recording").mkdir()
        self.expect_line("a record that was killed", ".recording: pmtrim-suite record is under way, or was killed", 4)

    def test_no_runs(self):
        """There is no run: the reports say so."""
        junit = self.new_folder() / "j.xml"
        for folder in (self.new_folder(), self.runs / "none"):
            told = suite("report", folder, "--junit", junit)
            self.expect(f"{folder}", told.status == 4 and f"not judged: {folder}: there is no " in told.out, told)
            self.expect("it is an error", f'<error type="file" message="{folder}: there is no ' in junit.read_text(), junit.read_text())

    def test_pmtrim(self):
        """What pmtrim says when it fails, and a pmtrim of another version."""
        for text, line, status in (
            ("echo out of memory >&2; exit 5", "not judged: clean: out of memory", 5),
            ("kill -9 $$", "not judged: clean: pmtrim died by SIGKILL", 4),
            ("exit 9", "not judged: clean: pmtrim ended with status 9", 4),
            ("exit 0", "pmtrim explain --json did not answer", 3),
            ("""echo '{"kind": "summary", "schema": 99}'""", "answers in schema 99, and this reads 4", 3),
            ("echo nonsense", "answers what this can't read", 3),
        ):
            program = put_program(self.new_folder() / "pmtrim", text)
            self.expect_line(text, line, status, known={"PMTRIM": str(program)})
        told = suite("report", self.runs, known={"PMTRIM": "/none"})
        self.expect("no pmtrim", told.status == 4 and "/none: there is no such program" in told.out, told)

    def test_words(self):
        for words, wanted in (
            ([], "no command is given"),
            (["frob"], "there is no command 'frob'"),
            (["report"], "DIR"),
            (["report", "--frob", "x"], "--frob"),
            (["report", "x", "--shard", "5/4"], "5/4 is no shard"),
            (["report", "x", "--jobs", "0"], "0 is no number"),
            (["report", "x", "--fail-on", "bugs"], "there is no kind 'bugs', but failure"),
            (["report", "x", "--update-baseline"], "--update-baseline wants --baseline FILE"),
            (["merge", "out"], "REPORT"),
            (["record", "x"], "no command is given"),
            (["record", "x", "--"], "no command is given"),
            (["record", "x", "--with", "--seeds 3", "--", "true"], "--with takes no --seeds"),
            (["record", "x", "--own", "--with", "--pmdk", "--", "true"], "don't go together"),
            (["record", "x", "--", "/none/such"], "/none/such: there is no such program"),
        ):
            told = suite(*words)
            self.expect(f"{words}", (told.status, told.out) == (2, "") and wanted in told.err and told.err.count("\n") == 1, told)

    def test_stopped(self):
        """A signal ends what runs, and nothing half is left."""
        program = put_program(self.new_folder() / "pmtrim", 'echo $$ > "$0.pid"; exec sleep 60')
        pid = program.with_name("pmtrim.pid")
        process = subprocess.Popen([SUITE, "report", self.runs, "--sarif", self.runs / "s"], env={**os.environ, "PMTRIM": str(program)}, stdout=subprocess.PIPE)
        until = time.monotonic() + 60
        while not (pid.exists() and pid.read_text()) and time.monotonic() < until:
            time.sleep(0.05)
        process.terminate()
        out, _ = process.communicate(timeout=60)
        self.expect_equal("how it ended", (process.returncode, out), (-signal.SIGTERM, b""))
        self.expect("what it had begun is gone", not pathlib.Path(f"/proc/{pid.read_text().strip()}").exists(), "it runs")
        self.expect_equal("what is left", {str(path) for path in files_in(self.runs)}, {"clean/trace"})
