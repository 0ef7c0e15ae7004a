"""Crashes, as `pmtrim image --list` tells them and `pmtrim image` takes them."""
import re
from typing import NamedTuple

from faults import DISAGREEMENT, Fault

TOLD = re.compile(r"--at (\d+)( --all)?((?: --line 0x[0-9a-f]+:\d+)*)\n")
LINE = re.compile(r" --line 0x([0-9a-f]+):(\d+)")


class Crash(NamedTuple):
    """A crash after `place` events: each line has its front of stores, or where `is_all` its count, but these lines so many."""

    place: int
    is_all: bool
    lines: tuple  # of (line, stores)

    def words(self, line_size):
        """As `pmtrim image` takes it."""
        words = ["--at", str(self.place)] + ["--all"] * self.is_all
        for line, stores in self.lines:
            words += ["--line", f"{line * line_size:#x}:{stores}"]
        return words

    def holding(self, fronts):
        """The same crash, but that these lines have their fronts of stores."""
        return self._replace(lines=tuple(sorted({*self.lines, *fronts.items()}))) if self.is_all else self

    def persisted(self, bounds):
        """How many stores of each line that is not safe are persisted; `bounds` are its front and count."""
        counts = {line: (count if self.is_all else front) for line, (front, count) in bounds.items()}
        counts.update(self.lines)
        return counts


def read_crash(text, line_size):
    """The crash that a line of the list tells."""
    found = TOLD.fullmatch(text)
    if found is None:
        raise Fault(DISAGREEMENT, f"pmtrim image --list: {text.rstrip()!r} is no crash")
    lines = tuple((int(address, 16) // line_size, int(stores)) for address, stores in LINE.findall(found[3]))
    return Crash(int(found[1]), found[2] is not None, lines)
