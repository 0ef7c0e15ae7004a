"""Every trace of examples/ and tests/traces/, and whole answers.

A trace NAME.trace has either tests/traces/NAME.report and NAME.trimmed, which the answers must equal, or NAME.md beside it, a note
by generate.py from whose statements both are put together here.
"""
import re
import subprocess
import sys

from checks import Checks, add_tests
from traces import EXAMPLES, all_traces, report_of, trimmed_of

COMMANDS = ["check", "trim"]
WORKERS = ["1", "2", "4", "8", "16"]


def stated(note):
    """What a note says: numbers by their words, the entries of the report, the dropped events."""
    about, report, dropped = re.split(r"^## What .*$", note, flags=re.M)
    numbers = {word: int(value) for word, value in re.findall(r"(\w+): `(\d+)`", about)}
    return numbers, re.findall(r"`([^`]+)`", report), {int(number) for number in re.findall(r"`([^`]+)`", dropped)}


def place_in_report(entry):
    """Entries stand by event; at one store the overwritten ones, by rising earlier store, come before never-persisted."""
    fields = entry.split(" ")
    if fields[0] == "overwritten":
        return int(fields[3]), 0, int(fields[1])
    return int(fields[1]), 1, 0


class Examples(Checks):
    """A test for each trace, by its name."""

    def run_program(self, words, text=b""):
        """The status, the answer and the faults."""
        done = subprocess.run([self.program, *words], input=text, capture_output=True, timeout=120)
        return done.returncode, done.stdout, done.stderr

    def wanted_by_note(self, note, trace):
        """The report and the trimmed text that a note's statements make."""
        numbers, entries, dropped = stated(note)
        events = trace.decode().splitlines()[1:]
        asserted = {number for number, event in enumerate(events, 1) if event.startswith("is")}
        judged = [int(entry.split(" ")[1]) for entry in entries if entry.split(" ")[0] in ("persist", "ordered")]
        self.expect("note", sorted(asserted) == sorted(judged), "the note must judge each assertion once")
        self.expect("note", numbers["Dropped"] == len(dropped), "the note must name each dropped event")
        self.expect("note", numbers["Events"] == len(events), "the note must count the events")
        head = f"events {numbers['Events']} lines {numbers['Lines']}"
        last = f"kept {len(events) - len(dropped)} dropped {len(dropped)}"
        report = [head, *sorted(entries, key=place_in_report), last]
        trimmed = ["pmtrace 1", *(event for number, event in enumerate(events, 1) if number not in dropped)]
        return ["".join(line + "\n" for line in lines).encode() for lines in (report, trimmed)]

    def wanted(self, trace):
        """The report and the trimmed text that the program must write."""
        if report_of(trace).exists():
            return report_of(trace).read_bytes(), trimmed_of(trace).read_bytes()
        return self.wanted_by_note(trace.with_suffix(".md").read_text(), trace.read_bytes())

    def check_trace(self, trace):
        report, trimmed = self.wanted(trace)
        bad = b" fail\n" in report or b"never-persisted " in report
        answers = {"check": (1 if bad else 0, report, b""), "trim": (0, trimmed, b"")}
        for command in COMMANDS:
            self.expect_equal(command, self.run_program([command, str(trace)]), answers[command])
            for workers in WORKERS:
                words = [command, "--workers", workers, str(trace)]
                self.expect_equal(f"{command} --workers {workers}", self.run_program(words), answers[command])
        for name, text in (("without words", trace.read_bytes()), ("trimmed again", trimmed)):
            self.expect_equal(name, self.run_program([], text), answers["trim"])


add_tests(Examples, Examples.check_trace, {trace.stem: trace for trace in all_traces()})


class Generated(Checks):
    """The folder of examples."""

    def test_generator(self):
        """What stands in the folder is what the generator writes."""
        folder = self.new_folder()
        subprocess.run([sys.executable, EXAMPLES / "generate.py", folder], check=True)
        for path in folder.iterdir():
            self.expect(path.name, path.read_bytes() == (EXAMPLES / path.name).read_bytes(), "generate.py writes another file")
