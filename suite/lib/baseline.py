"""The baseline: a text of the causes that are known, a line each, with why that is so."""
import fnmatch
import glob
import os
import re
from typing import NamedTuple

from causes import KINDS
from faults import REFUSED, Fault
from files import read_text, write_whole

HEAD = """\
# What pmtrim-suite takes as known. A line is: ID KIND PLACE # WHY
# ID and KIND may be *, and PLACE may have *, ? and [..]; it is FILE:FUNCTION, or (PROGRAM) where labels name no file.
# %20 stands for a space in PLACE, %23 for #, and %25 for %.
"""
LINE = re.compile(r"(?P<id>[0-9a-f]{12}|\*)\s+(?P<kind>\S+)\s+(?P<place>\S+)\s*#\s*(?P<why>.*\S)\s*")
NOT_JUDGED = "not judged yet: say why it may stay"
ESCAPED = re.compile(r"[\s%#]")


class Entry(NamedTuple):
    """A line: what it is of, and why that may stay."""

    number: int
    id: str
    kind: str
    place: str
    why: str

    def is_of(self, cause):
        return self.id in ("*", cause.id) and self.kind in ("*", cause.kind) and fnmatch.fnmatchcase(escaped(cause.place), self.place)


def escaped(place):
    """A place as a word without spaces."""
    return ESCAPED.sub(lambda found: "".join(f"%{byte:02x}" for byte in found[0].encode()), place)


class Baseline:
    """The lines of a file. Where it has no file, or it is not there yet, it has no line."""

    def __init__(self, path):
        self.path = path
        self.is_missing = path is not None and not os.path.lexists(path)
        self.text = "" if path is None or self.is_missing else read_text(path)
        self.entries = [self.entry(number, line) for number, line in enumerate(self.text.splitlines(), 1) if line.strip() and not line.startswith("#")]

    def entry(self, number, line):
        found = LINE.fullmatch(line)
        if found is None:
            raise Fault(REFUSED, f"{self.path}:{number}: {line!r} is not ID KIND PLACE # WHY, as: 0123456789ab {KINDS[0]} src/list.c:insert # a cache, made anew")
        if found["kind"] not in ("*", *KINDS):
            raise Fault(REFUSED, f"{self.path}:{number}: there is no kind {found['kind']}, but: {', '.join(KINDS)}")
        return Entry(number, found["id"], found["kind"], found["place"], found["why"])

    def why(self, cause):
        """Why a cause is known; None where it is new."""
        return next((entry.why for entry in self.entries if entry.is_of(cause)), None)

    def unused(self, causes):
        """The entries that are of none of the causes."""
        return [entry for entry in self.entries if not any(entry.is_of(cause) for cause in causes)]

    def add(self, causes):
        """Writes the file anew, with a line more for each of these causes. What stands there stays as it is."""
        text = self.text or HEAD
        text += "" if text.endswith("\n") else "\n"
        first = text.count("\n")
        lines = [f"{cause.id} {cause.kind} {glob.escape(escaped(cause.place))} # {NOT_JUDGED}" for cause in causes]
        self.text, self.is_missing = "".join([text, *(f"{line}\n" for line in lines)]), False
        write_whole(self.path, self.text)
        self.entries += [self.entry(first + number, line) for number, line in enumerate(lines, 1)]
