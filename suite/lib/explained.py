"""What `pmtrim explain --json` says of one run, as causes."""
import contextlib
import dataclasses
import json
import re
import sys
from typing import NamedTuple, Optional

from causes import CUT, DROPPED, EMPTY, FAILURE, HINT, LATE, NEVER_PERSISTED, OVERWRITTEN, UNWRITTEN, Cause, Example, add_cause
from faults import REFUSED, Fault

SCHEMA = 4  # of the JSON, docs/EXPLAIN.md
TAKEN = ("cause", FAILURE, NEVER_PERSISTED, "place", DROPPED, OVERWRITTEN, UNWRITTEN, HINT)  # the kinds of lines that are read
KIND = re.compile(r'"kind":"(\w+)"')
# What a failure has of each cache line and byte, which may be as much as the trace: no quote stands so inside a text.
OF_BYTES = re.compile(r',"lines":\[.*?\](?=,"lost":\{)|,"ranges":\[.*?\](?=,"whole_lines":)')
UNFENCED = "unfenced: "  # before the labels of stores that are lost though their cache lines are flushed later
LINE_SIZES = (32, 64, 128, 256)
BYTES, FENCES = "bytes", "fences"  # the kinds of FILE.missing by which a verdict may change
LACKED = {BYTES: "bytes may have been stored or saved unseen", FENCES: "fences may have come unseen, so a failure may be a false alarm"}
WHY = {
    "unflushed": "no flush of the cache line follows the store by then",
    "unfenced": "the cache line is flushed after the store, but the thread that flushes makes no fence after it by then",
    "later": "the store comes only after the crash",
}


HINTS = {
    "split_word": "a word lies in two cache lines, so a crash can keep one half",
    "stored_after_flush": "the store comes after the flush of its cache line, so the fence does not save it",
    "one_line_short": "the flushes end one cache line before what was stored does, so the fence does not save the rest",
    "open_at_store": "the flush is not fenced when its thread stores to another cache line, so a crash can keep that store alone",
    "stored_after_mark": "the store comes after the one that publishes, by the same fence, so a crash can keep that and lose it",
}


def told_mend(mend):
    """What mends a loss, in words."""
    before = f", before event {mend['before']}" if mend.get("before") else ""
    if mend["mend"] == "fence":
        return f"Fence by thread {mend['thread']} after event {mend['after']}{before}."
    if mend["mend"] == "flush_and_fence":
        return f"Flush cache line {mend['cache_line']} after event {mend['after']}, and fence by the thread that flushes it{before}."
    return f"Do the store of event {mend['store']} first, before event {mend['before']}."


def told_event(event):
    return f"event {event['event']}: {event['words']}"


class Why(NamedTuple):
    """Why a store is lost: its cause, the flush that no fence follows, if that is it, and what mends it."""

    cause: str
    flush: Optional[str]
    label: Optional[str]
    fix: str

    def told(self):
        flush = [["flush", self.flush, self.label]] if self.flush else []
        return [["why", WHY[self.cause], None], *flush, ["fix", self.fix, None]]


def why_of(value):
    """Why what a line of JSON tells is lost."""
    cause, fix = value["cause"], told_mend(value["mend"])
    if cause["cause"] == "unfenced":
        return Why(sys.intern(cause["cause"]), told_event(cause["flush"]), cause["flush"]["label"], fix)
    return Why(sys.intern(cause["cause"]), None, None, fix)


@dataclasses.dataclass
class Group:
    """Failed assertions of one claim at one place, which lose a store for one reason: their numbers."""

    assertion: str
    label: Optional[str]
    events: list


class RunReader:
    """Takes the lines of JSON of one run, one after another."""

    aside = frozenset()  # numbers of assertions that are not told of

    def __init__(self, run, places, cut, show):
        self.run = run
        self.places = places
        self.cut = cut
        self.show = show  # the command that shows a finding, by words for `explain`
        self.causes = {}
        self.summary = None
        self.taken = TAKEN
        self.groups, self.failed = [], {}  # the failed assertions, and those that are told in full, by their numbers
        self.lost, self.rows = {}, []  # why cache lines lose stores; what became of the stores of places
        self.stores, self.tallies = {}, {}
        self.lacks = []  # what the trace lacks besides, as a kind, a count and words

    @contextlib.contextmanager
    def readable(self):
        """Fault: what comes of the answer is not of its form."""
        try:
            yield
        except (ValueError, KeyError, TypeError, AttributeError, IndexError, StopIteration) as error:
            raise Fault(REFUSED, f"{self.run.trace}: pmtrim explain --json answers what this can't read: {error}; are they of one version?") from error

    def take(self, line):
        """Takes a line. Fault: it is none of JSON of this form."""
        found = KIND.search(line)
        if self.summary is not None and (found is None or found[1] not in self.taken):
            return
        with self.readable():
            value = json.loads(OF_BYTES.sub("", line) if found and found[1] == FAILURE else line)
            kind = value["kind"]
            if self.summary is None and (kind != "summary" or value["schema"] != SCHEMA):
                raise Fault(REFUSED, f"{self.run.trace}: pmtrim explain answers in schema {value.get('schema')}, and this reads {SCHEMA}; are they of one version?")
            getattr(self, f"take_{kind}")(value)

    def check_answered(self):
        if self.summary is None:
            raise Fault(REFUSED, f"{self.run.trace}: pmtrim explain --json did not answer")

    def take_summary(self, value):
        self.summary = value
        self.lacks = [[lack["kind"], lack["count"], lack["what"]] for lack in value["lacks"] if lack["kind"] != CUT]

    def take_cause(self, value):
        self.groups.append(Group(value["assertion"], value["label"], [event for event in value["events"] if event not in self.aside]))

    def take_failure(self, value):
        self.failed[value["event"]["event"]] = value

    def begin(self, taken):
        """From here on the lines are of another answer, of which these kinds are read."""
        self.summary, self.taken = None, taken
        if "place" in taken:
            self.rows = []

    def add_failures(self, alike, most):
        """Adds the causes of failed assertions, of which so many of those that are alike are told in full. Answers of how many others it is
        not known which stores they lose."""
        unknown = 0
        with self.readable():
            for each in alike:
                asked = each.asked(most)
                others = len(each.events) - len(asked)
                unknown += 0 if each.are_one else others
                for number, event in enumerate(asked):
                    self.add_failure(each.group, 1 if number else 1 + others, self.failed[event])
        return unknown

    def add_failure(self, group, count, value):
        stores = [("loses", value["lost"])] if value["kept"] is None else [("keeps", value["kept"]), ("loses", value["lost"])]
        event, why = value["event"], why_of(value)
        told = [["claim", told_event(event), group.label]]
        told += [[role, f"byte {found['byte']} of {told_event(found['store'])}", found["store"]["label"]] for role, found in stores]
        labels = [group.label, *(found["store"]["label"] for _, found in reversed(stores))]
        self.add(FAILURE, f"{group.assertion} {why.cause}", labels, count, event["event"], [*told, *why.told()], ["--failure", str(event["event"])])

    def take_never_persisted(self, value):
        """There may be as many as stores, so no more is kept than what tells a place why."""
        kept = (value["first"]["event"], value["last"]["event"], why_of(value))
        self.lost.setdefault(int(value["cache_line"], 16), []).append(kept)

    def why_lost(self, event):
        """Why a store is never persisted: by the losses of the nearest cache line that may hold it."""
        address = int(event["address"], 16)
        losses = next(self.lost[line] for line in (address // size * size for size in LINE_SIZES) if line in self.lost)
        return next(why for first, last, why in losses if first <= event["event"] <= last)

    @property
    def has_two_reasons(self):
        """Whether a place may lose stores for good for more than one reason."""
        return len({why.cause for losses in self.lost.values() for _, _, why in losses}) > 1

    def take_place(self, value):
        self.rows.append(value)

    def add_places(self):
        """What became of the stores of each place."""
        with self.readable():
            for value in self.rows:
                label = (value["label"] or "").removeprefix(UNFENCED)
                place = self.places.of(label).name
                self.stores[place] = self.stores.get(place, 0) + value["stores"]
                self.add_lost(label, value)
                if value["late"]:
                    event = value["first_late"]
                    told = [["store", told_event(event), label], ["why", "it is not safe when its thread has made two more fences", None]]
                    self.add(LATE, "late", [label], value["late"], event["event"], told)

    def add_lost(self, label, value):
        """What a place loses for good."""
        if value["never_persisted"]:
            event = value["first_never_persisted"]
            why = self.why_lost(event)
            self.add(NEVER_PERSISTED, why.cause, [label], value["never_persisted"], event["event"], [["store", told_event(event), label], *why.told()])

    def take_dropped(self, value):
        event = value["event"]
        what = f"{event['words'].split(' ')[0]} {value['reason']['reason']}"
        self.tally(DROPPED, what, 1, (("does nothing", event),))

    def take_overwritten(self, value):
        self.tally(OVERWRITTEN, "overwritten", value["count"], (("store", value["earlier"]), ("overwritten by", value["later"])))

    def take_unwritten(self, value):
        self.tally(UNWRITTEN, value["event"]["words"].split(" ")[0], 1, (("claim on bytes never stored", value["event"]),))

    def take_hint(self, value):
        event, why = value["first"], HINTS.get(value["hint"], "mostly a slip")
        told = [["event", told_event(event), event["label"]], ["why", why, None]]
        self.add(HINT, value["hint"], [event["label"]], value["count"], event["event"], told)

    def tally(self, kind, reason, count, events):
        """Counts a finding, of which there may be as many as events; the first with these labels is told."""
        key = (kind, reason, *(event["label"] for _, event in events))
        self.tallies.setdefault(key, [0, events])[0] += count

    def add_tallies(self):
        for (kind, reason, *labels), (count, events) in self.tallies.items():
            told = [[role, told_event(event), event["label"]] for role, event in events]
            self.add(kind, reason, labels, count, events[0][1]["event"], told)

    def add(self, kind, reason, labels, count, event, told, words=None):
        """Adds a finding to its cause. A trace that was cut, or lacks bytes, does not tell what is lost for good."""
        if kind == NEVER_PERSISTED and (self.cut or lacks_bytes(self.lacks)):
            return
        add_cause(self.causes, self.cause_of(kind, reason, labels, count, event, told, words))

    def cause_of(self, kind, reason, labels, count, event, told, words=None):
        """The cause of a finding."""
        places = [self.places.of(label) for label in labels]
        words = ["--only", kind, "--from", str(event), "--to", str(event)] if words is None else words
        told = [[role, text, list(self.places.of(label)) if label else None] for role, text, label in told]
        example = Example(self.run.name, str(self.run.trace), self.summary["events"], event, [list(place) for place in places], told, self.show(words))
        return Cause(kind, reason, [place.name for place in places], count, None, {self.run.name: count}, {self.run.name: example})

    def finish(self):
        """All causes of the run, once the last line was taken."""
        self.add_places()
        self.add_tallies()
        if self.note:
            kind, event = (CUT, self.cut and self.cut[0]) if self.summary["events"] else (EMPTY, None)
            self.add(kind, kind, [None], 1, event, [["why", self.note, None]], [])
        return count_of(self.causes, self.stores)

    @property
    def note(self):
        return note_of(self.summary["events"], self.cut, self.lacks)


def count_of(causes, stores):
    """The causes, those of stores with how many stores their places make."""
    for cause in causes.values():
        cause.of = stores[cause.place] if cause.kind in (NEVER_PERSISTED, LATE) else None
    return list(causes.values())


def lacks_bytes(lacks):
    """Whether bytes of the pools may have been stored, or made safe, unseen: the verdict of a claim on them is not known then."""
    return any(kind == BYTES for kind, _, _ in lacks)


def told_lacks(lacks, wanted):
    """What of this kind a trace lacks, in words; None where that is nothing."""
    told = [f"{count} {what}" if count else "the recorder had no room to say what" for kind, count, what in lacks if kind == wanted]
    return f"{LACKED[wanted]}: {', '.join(told)}" if told else None


def note_of(events, cut, lacks):
    """Why a trace of so many events, which was cut so and lacks that, is not all of what happened; None where it is."""
    if not events:
        return cut[1] if cut else "the trace has no event"
    end = cut and (f"the trace was cut after event {cut[0]}: {cut[1]}" if cut[0] is not None else f"the trace was cut: {cut[1]}")
    return "; ".join(told for told in (end, told_lacks(lacks, BYTES)) if told) or None
