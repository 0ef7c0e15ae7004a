"""What is said of the parts of a run, each for what it answers for, and what that makes of the run."""
import dataclasses

from causes import CUT, DROPPED, EMPTY, FAILURE, NEVER_PERSISTED, OVERWRITTEN, UNWRITTEN, Cause, Example, add_cause, id_of, read_cause
from explained import UNFENCED, RunReader, count_of, lacks_bytes, note_of
from parts import read_head

ASIDE, ALIKE = "aside", "alike"
# What is asked of a part, and what of the answer is taken: of what is lost for good the last part tells alone, carried stores too.
OWN, END = "own", "end"
TAKEN = {OWN: ("cause", FAILURE, OVERWRITTEN, UNWRITTEN, DROPPED, "place"), END: (NEVER_PERSISTED, "place")}
UNKNOWN = {  # what no part of a run tells, and how it is counted
    ASIDE: ("assertion", "whether it holds", "whether they hold"),
    ALIKE: ("failed assertion", "whether it loses what the first ones at its place lose", "whether they lose what the first ones at their place lose"),
    DROPPED: ("flush", "whether it does nothing", "whether they do nothing"),
    UNWRITTEN: ("claim", "whether its bytes were ever stored", "whether their bytes were ever stored"),
}


def questions(part):
    """What is asked of a part, and the options that ask for it."""
    asked = [(OWN, ["--from", str(part.own_first)])]
    return [*asked, (END, ["--only", NEVER_PERSISTED])] if part.is_last else asked


class PartReader(RunReader):
    """Takes the lines of JSON of one part, answer after answer."""

    def __init__(self, run, part, places, show):
        super().__init__(run, places, None, show)
        self.part = part
        self.aside = part.aside
        self.head = read_head(part, places)
        self.question = None
        self.stores = {place: -count for place, count in self.head.stores.items()}
        self.findings, self.lines = [], {}
        self.claims = 0
        self.unknown = {**dict.fromkeys(UNKNOWN, 0), ASIDE: len(part.aside)}

    def ask(self, question):
        """The lines that come are of the answer to this."""
        self.question = question
        self.begin(TAKEN[question])

    def take_summary(self, value):
        super().take_summary(value)
        if self.question == OWN:
            self.claims = value["assertions"] - self.head.claims

    def take_overwritten(self, value):
        """A cache line counts for the places of its first pair, whichever part has that."""
        pair = (("store", value["earlier"]), ("overwritten by", value["later"]))
        self.lines[value["cache_line"]] = [id_of(OVERWRITTEN, "overwritten", [self.places.of(event["label"]).name for _, event in pair]), value["count"]]
        self.tally(OVERWRITTEN, "overwritten", 0, pair)

    def take_unwritten(self, value):
        if self.part.number == 1:
            super().take_unwritten(value)
        else:
            self.unknown[UNWRITTEN] += 1

    def take_dropped(self, value):
        """A flush that its thread has not fenced by the end of the part is decided by what comes then."""
        if value["reason"]["reason"] == "unfenced" and not self.part.is_last:
            self.unknown[DROPPED] += 1
        else:
            super().take_dropped(value)

    def take_never_persisted(self, value):
        if self.question == END:
            super().take_never_persisted(value)

    def take_place(self, value):
        if self.question == END:
            super().take_place(value)
        else:
            place = self.places.of(value["label"]).name
            self.stores[place] = self.stores.get(place, 0) + value["stores"]

    def add(self, *finding):
        self.findings.append(dataclasses.asdict(self.cause_of(*finding)))

    def said(self):
        """What was taken, as it stands in a file."""
        with self.readable():
            for value in self.rows:
                self.add_lost((value["label"] or "").removeprefix(UNFENCED), value)
        self.add_tallies()
        return {"events": self.part.events, "claims": self.claims, "lacks": self.lacks, "unknown": self.unknown, "findings": self.findings, "lines": self.lines, "stores": self.stores}


class Joined:
    """What the parts of a run say, joined as if it were one trace."""

    def __init__(self, run, said, show):
        self.run = run
        self.cut = run.cut()
        self.show = show  # the command that shows the last part
        self.lacks = said[-1]["lacks"]
        self.events, self.claims = (sum(each[word] for each in said) for word in ("events", "claims"))
        self.unknown = {word: sum(each["unknown"][word] for each in said) for word in UNKNOWN}
        self.stores, self.found, self.owners = {}, {}, {}
        for each in said:
            self.take(each)

    def take(self, said):
        for place, count in said["stores"].items():
            self.stores[place] = self.stores.get(place, 0) + count
        for finding in said["findings"]:
            cause = read_cause(finding)
            found = self.found.setdefault(cause.id, [cause, 0])
            found[1] += cause.count
        for line, (owner, count) in said["lines"].items():
            self.found[self.owners.setdefault(line, owner)][1] += count

    def causes(self):
        """The causes of the run."""
        causes = {}
        for ident, (cause, count) in self.found.items():
            if count and not (cause.kind == NEVER_PERSISTED and (self.cut or lacks_bytes(self.lacks))):
                cause.count, cause.runs = count, {self.run.name: count}
                causes[ident] = cause
        if self.note:
            add_cause(causes, self.cause_of_note())
        return count_of(causes, self.stores)

    def cause_of_note(self):
        kind, event = (CUT, self.cut and self.cut[0]) if self.events else (EMPTY, None)
        place = [f"({self.run.program})", None, None]
        example = Example(self.run.name, str(self.run.parts[-1]), self.events, event, [place], [["why", self.note, None]], self.show)
        return Cause(kind, kind, [place[0]], 1, None, {self.run.name: 1}, {self.run.name: example})

    @property
    def note(self):
        return note_of(self.events, self.cut, self.lacks)

    @property
    def aside(self):
        """What no part tells, in words: a late store may wait for fences of several parts, and a hint may be of all that a place does."""
        return told_aside(self.unknown, "its parts do not tell", ["which stores are saved late", "what hints there are"])


def told_aside(unknown, beginning="it is not known", others=()):
    """What is not told of so many assertions, flushes and claims, and what else is not; None where that is nothing."""
    told = [f"of {number:,} {counted_thing(word, number)} {UNKNOWN[word][1 if number == 1 else 2]}" for word, number in unknown.items() if number]
    return f"{beginning} {', '.join([*told, *others])}" if told or others else None


def counted_thing(word, number):
    thing = UNKNOWN[word][0]
    return thing if number == 1 else f"{thing}es" if thing.endswith("sh") else f"{thing}s"
