"""Causes: what is wrong, by an id that lasts; and how those of several runs become one."""
import dataclasses
import hashlib
from typing import Optional

FAILURE, NEVER_PERSISTED, LATE, DROPPED, OVERWRITTEN, UNWRITTEN, HINT, CUT, EMPTY = KINDS = (
    "failure",
    "never_persisted",
    "late",
    "dropped",
    "overwritten",
    "unwritten",
    "hint",
    "cut",
    "empty",
)
FAILING = (FAILURE, NEVER_PERSISTED)  # those that fail, unless others are named
ID_DIGITS = 12


def id_of(kind, reason, names):
    """The id of a cause: of its kind, its reason, and the files and functions of its places."""
    return hashlib.sha256("\n".join([kind, reason, *names]).encode("utf-8", "surrogateescape")).hexdigest()[:ID_DIGITS]


@dataclasses.dataclass
class Example:
    """One event that shows a cause, in one run: the places with their lines, and what is told of it."""

    run: str
    trace: str  # the trace of the run, or that of its parts which has the event
    events: int  # how many events this has
    event: Optional[int]
    places: list  # of [file, function, line]: the first is the place of the cause
    told: list  # of [role, text, place or null]
    show: str  # the command that shows it

    @property
    def order(self):
        return (self.events, self.run, self.event or 0)


@dataclasses.dataclass
class Cause:
    """A cause, over all runs that have it."""

    kind: str
    reason: str
    names: list  # of its places, which last; the first is the place of the cause
    count: int  # how often it came
    of: Optional[int]  # of how many stores of that place
    runs: dict  # by the name of the run, how often it came there
    examples: dict  # by the name of the run, an event that shows it there

    @property
    def id(self):
        return id_of(self.kind, self.reason, self.names)

    @property
    def example(self):
        """That of the shortest run."""
        return min(self.examples.values(), key=lambda example: example.order)

    @property
    def place(self):
        """The name of the place that the cause is told of."""
        return self.names[0]

    @property
    def what(self):
        """Its kind, and its reason where that says more."""
        return self.kind if self.reason == self.kind else f"{self.kind} ({self.reason})"

    @property
    def order(self):
        """Failed assertions first, then what is lost for good; what comes in most runs before others."""
        return (KINDS.index(self.kind), -len(self.runs), -self.count, self.names, self.reason)

    @property
    def sorted(self):
        """As it stands in a file: the same in whichever order the runs came."""
        return {name: dict(sorted(value.items())) if isinstance(value, dict) else value for name, value in dataclasses.asdict(self).items()}

    def join(self, other):
        """Takes what another part of the runs has of the same cause."""
        self.count += other.count
        self.of = None if self.of is None else self.of + (other.of or 0)
        for run, count in other.runs.items():
            self.runs[run] = self.runs.get(run, 0) + count
        for run, example in other.examples.items():
            self.examples[run] = min(example, self.examples.get(run, example), key=lambda example: example.order)


def add_cause(causes, cause):
    """Adds a cause to those of other runs, or of the same one."""
    if cause.id in causes:
        causes[cause.id].join(cause)
    else:
        causes[cause.id] = cause


def read_cause(value):
    """A cause as it stands in a file. KeyError, TypeError: it is none."""
    cause = Cause(**{**value, "examples": {run: Example(**example) for run, example in value["examples"].items()}})
    examples = list(cause.examples.values())
    texts = [cause.reason, *cause.names, *cause.runs, *(text for example in examples for text in (example.run, example.trace, example.show))]
    numbers = [cause.count, *cause.runs.values(), *(example.events for example in examples)]
    places = [place for example in examples for place in [*example.places, *(place for _, _, place in example.told if place)]]
    is_whole = all(isinstance(text, str) for text in texts) and all(isinstance(number, int) for number in numbers) and all(len(place) == 3 for place in places)
    if cause.kind not in KINDS or not cause.names or cause.runs.keys() != cause.examples.keys() or not all(example.places for example in examples) or not is_whole:
        raise TypeError("this is no cause")
    return cause
