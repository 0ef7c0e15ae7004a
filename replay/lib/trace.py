"""A trace, as far as images need it. That it is one is judged by pmtrim before."""
import bisect
import re

from events import labels_in
from faults import FILE_FAULT, REFUSED, WRONG_WORDS, Fault, of_file

FENCES = ("sfence", "mfence")
LABEL = "label "


class Trace:
    """The lines of a trace's events. Event N is lines[N - 1]; place N is the moment after it."""

    def __init__(self, path):
        self.path = path
        try:
            with open(path, encoding="ascii") as file:
                header, *self.lines = file.read().splitlines()
        except OSError as error:
            raise of_file(path, error) from error
        except ValueError as error:
            raise Fault(FILE_FAULT, f"{path}: it has changed while it was read") from error
        self.line_size = int(header.split(" ")[2]) if header.startswith("pmtrace 2") else 64
        self.labels = dict(labels_in(path))
        self.ignored, self.places = read_ignored(f"{path}.ignore")

    def store(self, number):
        """The address and the bytes of a store; None of another event."""
        words = self.lines[number - 1].split(" ")
        return (int(words[2], 16), bytes.fromhex(words[3])) if words[0] == "store" else None

    def stores(self):
        """The number, address and bytes of each store."""
        for number, line in enumerate(self.lines, 1):
            if line.startswith("store "):
                yield (number, *self.store(number))

    def is_ignored(self, number):
        """Whether all bytes of a store lie in ranges that need no saving, or its place needs none."""
        address, written = self.store(number)
        at = bisect.bisect_right(self.ignored, (address, float("inf"))) - 1
        return at >= 0 and address + len(written) <= self.ignored[at][1] or self.is_at_place(number)

    def site(self, number):
        """The innermost frame of the event's label, or without one its thread; None of no event."""
        if number in self.labels:
            return self.labels[number].partition(" < ")[0]
        return f"thread {self.lines[number - 1].split(' ')[1]}" if number else None

    def is_at_place(self, number, places=None):
        """Whether the site of a labelled event is one of these places, or of those that need no saving, or begins so."""
        frame = self.site(number)
        return number in self.labels and any(frame.startswith(place[:-1]) if place.endswith("*") else frame == place for place in places or self.places)

    def lines_held(self, wanted):
        """The cache lines of these addresses, and those that stores of these places write. Fault: there is none."""
        held = set()
        for word in wanted:
            is_address = re.fullmatch("0x[0-9a-f]{1,12}", word)
            lines = {int(word, 16) // self.line_size} if is_address else {address // self.line_size for number, address, _ in self.stores() if self.is_at_place(number, [word])}
            if not lines:
                raise Fault(WRONG_WORDS, f"--hold {word}: no store has this place in its label")
            held |= lines
        return held

    def may_raise(self, number):
        """Whether the event may make stores safe: a fence, or a clflush."""
        return self.lines[number - 1].startswith((*FENCES, "clflush "))

    def describe(self, number):
        """An event by its words and its label."""
        if number == 0:
            return "the beginning"
        label = self.labels.get(number)
        return f"event {number}{f' at {label}' if label else ''}: {self.lines[number - 1]}"


def read_ignored(path):
    """What needs no saving: ranges, as pmtrim-record --pmdk writes them beside a trace, as rising pairs of the first address and that
    behind the last one, none of which touch; and the places of lines 'label LABEL'. None where there is no such file."""
    try:
        with open(path, encoding="utf-8", errors="replace") as file:
            lines = file.read().splitlines()
    except FileNotFoundError:
        return [], []
    except OSError as error:
        raise of_file(path, error) from error
    joined, places = [], [line.removeprefix(LABEL) for line in lines if line.startswith(LABEL)]
    for start, length in sorted(read_range(path, number, line) for number, line in enumerate(lines, 1) if not line.startswith(LABEL)):
        if joined and start <= joined[-1][1]:
            joined[-1] = (joined[-1][0], max(joined[-1][1], start + length))
        else:
            joined.append((start, start + length))
    return joined, places


def read_range(path, number, line):
    """A:N, as `explain --ignore-file` takes it."""
    found = re.fullmatch(r"0x([0-9a-f]{1,12}):(\d{1,15})", line)
    if found is None:
        raise Fault(REFUSED, f"{path}:{number}: {line!r} is no range as 0x1000:8")
    return int(found[1], 16), int(found[2])
