"""Places of programs, as labels of events name them, without what changes from run to run."""
import os
import re
from typing import NamedTuple, Optional

CALLER = " < "
WITH_LINE = re.compile(r"(?P<file>.+?):(?P<line>\d+)(?: (?P<function>.+))?", re.S)
WITH_ADDRESS = re.compile(r"(?P<file>.+)\+0x[0-9a-f]+")
BEFORE_WINDOW = " (before the window)"
# What compilers add to the names of parts and copies of a function.
COPIES = re.compile(r"\.(?:isra|constprop|part|cold|lto_priv|llvm)(?:\.\d+)*")
ADDRESS = re.compile(r"0x[0-9a-f]+")


class Place(NamedTuple):
    """A place of a program: a file, or the program in brackets where no file is known; and a function and a line, where they are."""

    file: str
    function: Optional[str]
    line: Optional[int]

    @property
    def name(self):
        """What stays of it when lines are added above: its file and its function."""
        return f"{self.file}:{self.function}" if self.function else self.file

    @property
    def shown(self):
        """For people, with the line."""
        line = "" if self.line is None else f":{self.line}"
        return f"{self.file}{line} {self.function}" if self.function else f"{self.file}{line}"


class Places:
    """The places of a run: by its program, the folder of the sources, and the functions that its labels do not name."""

    def __init__(self, program, sources, functions):
        self.program = program
        self.sources = os.path.join(os.path.abspath(sources), "")
        self.functions = functions
        self.known = {}

    def of(self, label):
        """The place of an event with this label, or with none."""
        if label not in self.known:
            self.known[label] = self.found(label)
        return self.known[label]

    def found(self, label):
        if not label:
            return Place(f"({self.program})", None, None)
        frame = label.removesuffix(BEFORE_WINDOW).partition(CALLER)[0]
        found = WITH_LINE.fullmatch(frame)
        if found:
            function = found["function"] or self.functions.get(f"{found['file']}:{found['line']}")
            return Place(self.file_named(found["file"]), lasting(function), int(found["line"]))
        found = WITH_ADDRESS.fullmatch(frame)
        if found:
            return Place(self.file_named(found["file"]), None, None)
        return Place(f"({self.program})", lasting(frame), None)

    def file_named(self, path):
        """The path from the folder of the sources on, if it lies there."""
        path = os.path.normpath(path)
        return path[len(self.sources) :] if path.startswith(self.sources) else path


def lasting(function):
    """A function's name without the compiler's numbers and without addresses; None where there is none."""
    return ADDRESS.sub("0x", COPIES.sub("", function)).strip() or None if function else None
