"""The programs that this one runs: pmtrim, and pmtrim-record."""
import subprocess
import tempfile
import threading

from faults import FILE_FAULT, NO_MEMORY, WRONG_WORDS, Fault
from programs import find_program, signal_name


def find_recorder(here):
    return find_program(here, "pmtrim-record", "recorders/valgrind/pmtrim-record", "./install puts it beside this one")


class Pmtrim:
    """Runs pmtrim, side by side, until it is stopped."""

    def __init__(self, program):
        self.program = program
        self.lock = threading.Lock()
        self.running = set()
        self.stopped = False

    def lines(self, words, file=None):
        """The lines of an answer, one after another; a file is open for it, by its number. Fault after the last one: in pmtrim's own words,
        with its status."""
        with tempfile.TemporaryFile() as told:
            with self.lock:
                if self.stopped:
                    return
                pipes = {"stdin": subprocess.DEVNULL, "stdout": subprocess.PIPE, "stderr": told, "pass_fds": [file.fileno()] if file else []}
                process = subprocess.Popen([self.program, *words], text=True, errors="replace", **pipes)
                self.running.add(process)
            try:
                yield from process.stdout
            finally:
                process.stdout.close()
                process.wait()
                with self.lock:
                    self.running.discard(process)
            if process.returncode not in (0, 1):
                told.seek(0)
                raise self.fault(process.returncode, told.read(4096).decode(errors="replace").split("\n"))

    def fault(self, code, told):
        """What it said, in one line."""
        status = code if code in range(WRONG_WORDS, NO_MEMORY + 1) else FILE_FAULT
        ended = f"pmtrim died by {signal_name(-code)}" if code < 0 else f"pmtrim ended with status {code}"
        return Fault(status, " ".join(line.strip() for line in told if line.strip()) or ended)

    def stop(self):
        """Ends what runs, and lets none begin."""
        with self.lock:
            self.stopped = True
            for process in self.running:
                process.kill()
