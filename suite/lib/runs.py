"""The runs below a folder: traces, and what stands beside them."""
import os
import pathlib
import re
import shlex
from typing import NamedTuple

from events import labels_in
from faults import FILE_FAULT, Fault, of_file
from files import read_if_there
from parts import series_of

TRACE = "trace"
RECORDING, EXPLAINED = ".recording", ".explained"  # folders of this program's own, below that of the runs
ENDINGS = (".labels", ".ignore", ".cut", ".missing", ".functions", ".part")  # of the files beside a trace that change what is told of it


class Run(NamedTuple):
    """A run: its name below the folder, its trace, or the path with which the names of its parts begin, and these."""

    name: str
    trace: pathlib.Path
    parts: tuple = ()

    def beside(self, ending):
        """The file of this ending beside the trace."""
        return self.trace.with_name(self.trace.name + ending)

    def has(self, ending):
        return os.path.lexists(self.beside(ending))

    @property
    def pieces(self):
        """Each of its parts as a run, or the run itself."""
        return [Run(self.name, part) for part in self.parts] or [self]

    @property
    def command(self):
        """The command line, as a shell takes it; None where it is not known."""
        return first_line(self.trace.with_name("command")) if self.trace.name == TRACE else None

    @property
    def ended(self):
        """How it ended: a status, or words; None where that is not known."""
        return first_line(self.trace.with_name("status")) if self.trace.name == TRACE else None

    @property
    def program(self):
        """The name of its program: that of its command line, or else that of the run without its number."""
        try:
            words = shlex.split(self.command or "")
        except ValueError:
            words = []
        return os.path.basename(words[0]) if words else re.sub(r"-\d+$", "", os.path.basename(self.name).removesuffix(".trace"))

    def functions(self):
        """Of places without a function, FILE:LINE, the function that `record` found in their source."""
        lines = (read_if_there(self.beside(".functions")) or "").splitlines()
        return {place: function for place, _, function in (line.rpartition(" ") for line in lines) if place}

    def cut(self):
        """After which event the trace was cut, or the last of its parts, and why; None where it was not. A file without a line tells that
        no more had room."""
        text = read_if_there(self.pieces[-1].beside(".cut"))
        if text is None:
            return None
        number, _, why = text.rstrip("\n").partition(" ")
        return (int(number) or None if number.isdecimal() else None, why or "there was no room for more")


def first_line(path):
    text = read_if_there(path)
    return text.splitlines()[0] if text else None


def find_runs(folder):
    """The runs below a folder by their names, and the faults of what is none or can't be looked into."""
    top = pathlib.Path(folder)
    runs, faults = [], []
    if (top / RECORDING).exists():
        faults.append(Fault(FILE_FAULT, f"{top / RECORDING}: pmtrim-suite record is under way, or was killed: run it anew"))
    for place, folders, files in os.walk(top, onerror=lambda error: faults.append(of_file(error.filename, error))):
        folders[:] = sorted(name for name in folders if not (place == str(top) and name in (RECORDING, EXPLAINED)))
        found, series = series_of(sorted(files))
        path = pathlib.Path(place)
        for name in [*found, *series]:
            below = path.relative_to(top)
            parts = tuple(path / part for part in series.get(name, ()))
            is_named_so = name == TRACE and path != top and not (parts and TRACE in found)
            runs.append(Run(str(below if is_named_so else below / name), path / name, parts))
        if not (found or series) and is_without_run(path, folders, files):
            faults.append(Fault(FILE_FAULT, f"{path}: there is no trace in this folder"))
    return sorted(runs), faults


def is_without_run(path, folders, files):
    """Whether the folder should have a run: it has files of one, or nothing at all."""
    return {"command", "status"} & set(files) or any(name.startswith("trace.") for name in files) or (not folders and not files)


class Shard(NamedTuple):
    """Every `of`-th run, from the `number`-th on."""

    number: int
    of: int

    def share(self, runs):
        return runs[self.number - 1 :: self.of]


def check_folder(folder):
    if not os.path.isdir(folder):
        raise Fault(FILE_FAULT, f"{folder}: there is no such folder")


def check_runs(folder, runs):
    if not runs:
        raise Fault(FILE_FAULT, f"{folder}: there is no run below it, that is no file named {TRACE} or *.trace; pmtrim-suite record makes them")


def label_texts(run):
    """The labels of a run, each once."""
    return list(dict.fromkeys(label for _, label in labels_in(run.trace)))
