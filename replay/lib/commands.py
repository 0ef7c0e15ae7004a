"""The program pmtrim, whose answers are proved: fronts, and images."""
import os
import re
import subprocess
import tempfile

from crashes import read_crash
from faults import FILE_FAULT, WRONG_WORDS, Fault, of_file
from pools import write_own_trace
from programs import SIGNALS

FRONT = re.compile(r"line 0x([0-9a-f]+) front (\d+) count (\d+)")


def how_it_ended(code):
    """A status, or the signal by which a program died."""
    return f"status {code}" if code >= 0 else f"died by {SIGNALS.get(-code, f'signal {-code}')}"


class Commands:
    """Runs the program. `processes` knows what runs, to end it."""

    def __init__(self, program, trace_path, processes):
        self.program = program
        self.trace_path = trace_path
        self.processes = processes

    def run(self, *words):
        """The answer; a fault is told in the program's own words, with its status."""
        return "".join(self.lines(*words))

    def lines(self, *words):
        """The same, a line at a time; a fault is told after the last one."""
        options = {"stdin": subprocess.DEVNULL, "stdout": subprocess.PIPE}
        with tempfile.TemporaryFile() as told:
            process = self.processes.begin([self.program, *words], text=True, errors="replace", stderr=told, **options)
            try:
                yield from process.stdout
                process.wait()
            except BaseException:
                self.processes.kill_group(process)
                process.wait()
                raise
            finally:
                process.stdout.close()
                self.processes.ended(process)
            self.processes.go_on()
            if process.returncode != 0:
                told.seek(0)
                status = process.returncode if process.returncode in range(WRONG_WORDS, 6) else FILE_FAULT
                text = told.read().decode(errors="replace").strip()
                raise Fault(status, f"pmtrim {words[0]}: {text or how_it_ended(process.returncode)}")

    def crashes(self, places, off, line_size):
        """The crashes near these places, or where none are given, near those that pmtrim takes then."""
        at = ["--at", ",".join(f"{first}-{last}" for first, last in places)] if places else []
        for line in self.lines("image", "--list", *at, "--off", str(off), self.trace_path):
            yield read_crash(line, line_size)

    def fronts(self, place, line_size):
        """The front and the count of each line, at a place."""
        answer = self.run("fronts", self.trace_path, str(place))
        return {int(line, 16) // line_size: (int(front), int(count)) for line, front, count in FRONT.findall(answer)}


class ImageMaker:
    """Makes the images of crashes. Of a trace with several pools, which pmtrim knows none of, each pool has its own part."""

    def __init__(self, commands, trace, pools, folder):
        self.commands = commands
        self.line_size = trace.line_size
        self.pools = pools
        self.parts = [(trace.path, range(len(trace.lines) + 1))]
        if len(pools) > 1:
            paths = [f"{folder}/pool{number}.trace" for number in range(1, len(pools) + 1)]
            self.parts = [(path, write_own_trace(trace, pool, path)) for pool, path in zip(pools, paths)]

    def words(self, crash, number, path):
        """The words by which pmtrim writes the image of a pool to a file."""
        pool, (trace_path, places) = self.pools[number], self.parts[number]
        own = [(line, stores) for line, stores in crash.lines if pool.origin < (line + 1) * self.line_size and line * self.line_size < pool.end]
        crash = crash._replace(place=places[crash.place], lines=tuple(own))
        return ["image", *crash.words(self.line_size), "--pool", pool.base, "--origin", f"{pool.origin:#x}", "--out", str(path), trace_path]

    def make(self, crash, folder):
        """Writes the images of all pools into a folder. Answers their paths."""
        paths = [folder / ("image" if number == 0 else f"image{number + 1}") for number in range(len(self.pools))]
        for number, path in enumerate(paths):
            self.commands.run(*self.words(crash, number, path))
        return paths

    def differs(self, paths, contents):
        """The first address of a line where the images don't hold what was foreseen; None where all do."""
        for pool, path in zip(self.pools, paths):
            try:
                with open(path, "rb") as file:
                    for address, content in contents:
                        if pool.origin <= address < pool.end and os.pread(file.fileno(), len(content), address - pool.origin) != content:
                            return address
            except OSError as error:
                raise of_file(path, error) from error
        return None
