"""What `explain` must say of a trace: the definitions, read literally over all states that a run can reach (machine.py).

The crash of a failed assertion is a state of the machine that violates it, causes and reasons are the ones there are, and what is told
to mend a loss does so where it is put into the trace. No front and no other closed form is used.
"""
import functools
import itertools
import json

import grouped
import hinted
import placed
from entries import Entries, Run
from machine import FENCES, FLUSHES, Trace, entries_at, is_empty_fence, is_kept, least, spelled

KINDS = ("failure", "never_persisted", "dropped", "overwritten", "unwritten", "late", "hint")
ANY_FLUSH = ("clflush", *FLUSHES)
MOST_LINES = 100  # of those that a crash leaves without a store


NOTHING = {"from": None, "label": None, "only": None, "range": None, "thread": None, "to": None}


class Explained:
    """The entries that a trace must have, with these ignored ranges, labels, findings that are asked for, and ignored places."""

    def __init__(self, trace, ignored, labels, asked=None, places=()):
        self.trace = trace
        self.ignored = ignored
        self.places = places
        self.labels = labels
        self.asked = {**NOTHING, **(asked or {})}
        self.end = len(trace.events)
        self.entries = list(itertools.chain.from_iterable(entries_at(trace, number) for number in trace.numbers))

    def is_whole(self):
        """Whether all of the trace is told of."""
        return self.asked == NOTHING

    # Events

    def event(self, number):
        """How an event is named."""
        word, thread, *rest = self.trace.event(number)
        address = hex(rest[0]) if rest else None
        words = spelled(self.trace.event(number))
        return {"address": address, "event": number, "label": self.labels.get(number), "line": number + 1, "thread": thread, "words": words}

    def address(self, line):
        return hex(line * self.trace.size)

    def is_in_ranges(self, store):
        _, _, start, data = self.trace.event(store)
        return all(any(low <= byte < low + length for low, length in self.ignored) for byte in range(start, start + len(data)))

    def is_at(self, text, store):
        """Whether the label says this before the first caller, or something that begins as a text with a star at its end."""
        frame = self.labels[store].split(" < ")[0] if store in self.labels else None
        return frame is not None and (frame.startswith(text[:-1]) if text.endswith("*") else frame == text)

    def is_ignored(self, store):
        return self.is_in_ranges(store) or any(self.is_at(text, store) for text in self.places)

    # What is asked for

    def bytes_of(self, number):
        """The bytes that an event stores or asserts, or those of the line that it flushes."""
        word, _, *fields = self.trace.event(number)
        if word == "store":
            return set(range(fields[0], fields[0] + len(fields[1])))
        if word in ANY_FLUSH:
            start = self.trace.line(number) * self.trace.size
            return set(range(start, start + self.trace.size))
        spans = [(fields[at], fields[at + 1]) for at in range(0, len(fields), 2)]
        return {byte for start, length in spans for byte in range(start, start + length)}

    def is_asked(self, kind, number):
        """Whether the finding of this kind at the event is asked for."""
        asked, wanted = self.asked, self.asked["range"]
        return (
            asked["only"] in (None, kind)
            and asked["thread"] in (None, self.trace.event(number)[1])
            and (asked["from"] or 0) <= number <= (asked["to"] or self.end)
            and (asked["label"] is None or asked["label"] in self.labels.get(number, ""))
            and (wanted is None or any(wanted["address"] <= byte < wanted["address"] + wanted["length"] for byte in self.bytes_of(number)))
        )

    # Failures

    def failing(self):
        return [int(entry.split(" ")[1]) for entry in self.entries if entry.endswith(" fail")]

    def failures(self):
        return [self.failure(number) for number in self.failing() if self.is_asked("failure", number)]

    @functools.cached_property
    def causes(self):
        """The key and the members of each cause."""
        return grouped.causes(self)

    def cause_entry(self, key, members):
        assertion, why, (origin, name) = key
        named = {"label": None, "thread": None, origin: name}
        return {"kind": "cause", "assertion": assertion, "why": why, "count": len(members), "events": members, **named}

    def byte_stores(self, span, place):
        """The last store to each byte of the range, the first by number and then by byte first."""
        found = [(self.trace.last_store(byte, place), byte) for byte in range(span[0], span[0] + span[1])]
        return sorted(pair for pair in found if pair[0] is not None)

    def crash(self, place, full):
        """At the place each line has no more stores persisted than every run must have, but all of the full line."""
        counts = {line: len(self.trace.stores(line, place)) if line == full else least(self.trace, line, place) for line in self.trace.lines(place)}
        return tuple(sorted((line, count) for line, count in counts.items() if count))

    def violation(self, number):
        """The place of the crash, the kept store and the lost one, each with its byte."""
        _, _, *fields = self.trace.event(number)
        spans = [(fields[at], fields[at + 1]) for at in range(0, len(fields), 2)]
        first = self.byte_stores(spans[0], number)
        crashes = [(number, None, None)]
        if len(spans) == 2:
            crashes = [(kept[0], kept, self.trace.line(kept[0])) for kept in self.byte_stores(spans[1], number)]
        for place, kept, full in crashes:
            state = self.crash(place, full)
            lost = [pair for pair in first if not self.trace.is_persisted(state, pair[0])]
            if lost:
                return spans, place, kept, lost[0], state
        raise ValueError(f"assertion {number} has no crash that violates it")

    def failure(self, number):
        spans, place, kept, lost, state = self.violation(number)
        if state not in self.trace.reached[place]:
            raise ValueError(f"no run of {place} events ends with {state}")
        counts = dict(state)
        lines = [
            {"cache_line": self.address(line), "persisted": counts.get(line, 0), "stores": len(self.trace.stores(line, place))}
            for line in self.trace.lines(place)
        ]
        losing = [line for line in lines if line["persisted"] < line["stores"]]
        return {
            "kind": "failure",
            "event": self.event(number),
            "place": place,
            "kept": kept and {"byte": hex(kept[1]), "store": self.event(kept[0])},
            "lost": {"byte": hex(lost[1]), "store": self.event(lost[0])},
            "cause": self.cause(lost[0], place),
            "lines": losing[:MOST_LINES],
            "more_lines": len(losing[MOST_LINES:]),
            "whole_lines": len(lines) - len(losing),
            "ranges": [self.memory(span, place, state) for span in spans],
        }

    def memory(self, span, place, state):
        """What the crash leaves in the range, each byte with the store that it is from."""
        held = {}
        for number in range(1, place + 1):
            word, _, *rest = self.trace.event(number)
            if word == "store" and self.trace.is_persisted(state, number):
                held.update({rest[0] + offset: (number, value) for offset, value in enumerate(rest[1])})
        nothing = (None, None)
        cells = [held.get(byte, nothing) for byte in range(span[0], span[0] + span[1])]
        return {
            "address": hex(span[0]),
            "length": span[1],
            "stores": [store for store, _ in cells],
            "values": [value for _, value in cells],
        }

    def cause(self, store, place):
        if store > place:
            return {"cause": "later"}
        line = self.trace.line(store)
        flushes = [number for number in range(store + 1, place + 1) if self.trace.is_flush_of(number, line, ANY_FLUSH)]
        if not flushes:
            return {"cause": "unflushed"}
        fences = [number for number in range(flushes[0] + 1, place + 1) if self.trace.event(number)[0] in FENCES]
        other = self.event(fences[0]) if fences else None
        return {"cause": "unfenced", "flush": self.event(flushes[0]), "thread": self.trace.event(flushes[0])[1], "other": other}

    # What is lost and what is overwritten

    def lost_stores(self):
        return [int(entry.split(" ")[1]) for entry in self.entries if entry.startswith("never-persisted")]

    def never_persisted(self):
        groups = {}
        for store in self.lost_stores():
            if not self.is_ignored(store) and self.is_asked("never_persisted", store):
                line, cause = self.trace.line(store), self.cause(store, self.end)
                groups.setdefault((line, json.dumps(cause)), (line, cause, []))[2].append(store)
        return [
            {
                "kind": "never_persisted",
                "cache_line": self.address(line),
                "cause": cause,
                "count": len(stores),
                "first": self.event(stores[0]),
                "last": self.event(stores[-1]),
            }
            for line, cause, stores in groups.values()
        ]

    def pairs(self):
        found = [entry.split(" ") for entry in self.entries if entry.startswith("overwritten")]
        return [(int(fields[1]), int(fields[3])) for fields in found]

    def is_same(self, earlier, later):
        """All that the earlier store wrote is written again by the later one, with the same bytes."""
        (_, _, old_at, old), (_, _, new_at, new) = self.trace.event(earlier), self.trace.event(later)
        written = {new_at + offset: value for offset, value in enumerate(new)}
        return all(written.get(old_at + offset) == value for offset, value in enumerate(old))

    def overwritten(self):
        groups = {}
        for earlier, later in self.pairs():
            if not self.is_ignored(earlier) and any(self.is_asked("overwritten", store) for store in (earlier, later)):
                groups.setdefault(self.trace.line(earlier), []).append((earlier, later))
        return [
            {
                "kind": "overwritten",
                "cache_line": self.address(line),
                "count": len(pairs),
                "same": sum(self.is_same(*pair) for pair in pairs),
                "earlier": self.event(pairs[0][0]),
                "later": self.event(pairs[0][1]),
            }
            for line, pairs in groups.items()
        ]

    # What is dropped

    def all_dropped(self):
        return [number for number in self.trace.numbers if not is_kept(self.trace, number)]

    def dropped(self):
        numbers = [number for number in self.all_dropped() if self.is_asked("dropped", number)]
        return [{"kind": "dropped", "event": self.event(number), "reason": self.reason(number)} for number in numbers]

    def reason(self, number):
        word, thread = self.trace.event(number)[:2]
        if word in FENCES:
            return {"by": None, "reason": "empty" if is_empty_fence(self.trace, number) else "useless"}
        reason, by = self.flush_reason(number, word, thread)
        return {"by": by and self.event(by), "reason": reason}

    def flush_reason(self, number, word, thread):
        trace, line = self.trace, self.trace.line(number)
        stores = trace.stores(line, number)
        if all(trace.is_safe(store, number - 1) for store in stores):
            return "safe", None
        if word == "clflush":
            raise ValueError(f"clflush {number} is dropped and not safe")
        fences = [other for other in range(number + 1, self.end + 1) if trace.event(other)[0] in FENCES and trace.event(other)[1] == thread]
        if not fences:
            return "unfenced", None
        between = range(number + 1, fences[0])
        again = [other for other in between if trace.is_flush_of(other, line, FLUSHES) and trace.event(other)[1] == thread]
        if again:
            return "repeated", again[0]
        return "overtaken", next(other for other in between if all(trace.is_safe(store, other) for store in stores))

    # Assertions on bytes that were never stored

    def unwritten(self):
        found = []
        for number in self.trace.numbers:
            word, _, *fields = self.trace.event(number)
            if word.startswith("is") and self.is_asked("unwritten", number):
                spans = [(fields[at], fields[at + 1]) for at in range(0, len(fields), 2)]
                empty = [{"address": hex(start), "length": length} for start, length in spans if not self.trace.last_stores(start, length, number)]
                if empty:
                    found.append({"kind": "unwritten", "event": self.event(number), "ranges": empty})
        return found

    # Late stores and tables

    def late_entry(self, key, stores):
        where = {"cache_line": None, "label": None, "cache_line" if key[0] == "line" else "label": key[1]}
        return {"kind": "late", "count": len(stores), "first": self.event(stores[0]), **where}

    # What is told first

    @functools.cached_property
    def told(self):
        """The entries of all of the trace, and the verdict."""
        whole = self if self.is_whole() else Explained(self.trace, self.ignored, self.labels, None, self.places)
        run = Run(self.trace.size, self.trace.events, self.labels, self.is_ignored)
        return Entries(run, list(hinted.entries(whole)), [whole.cause_entry(*cause) for cause in whole.causes])

    def weighed(self, entry):
        sites = [{"label": None, "thread": None, kind: name} for kind, name in entry.sites]
        told = {"sites": sites[:100], "more_sites": max(0, len(sites) - 100)}
        return {**entry._asdict(), "kind": "entry", "first": self.event(entry.first), **told}

    # The whole

    def all_entries(self):
        """The entries of each kind; of a cause its first member is told in full."""
        return {
            "entry": [self.weighed(entry) for entry in self.told.entries] if self.is_whole() else [],
            "cause": [self.cause_entry(*cause) for cause in self.causes],
            "failure": [self.failure(members[0]) for _, members in self.causes],
            "never_persisted": self.never_persisted(),
            "dropped": self.dropped(),
            "overwritten": self.overwritten(),
            "unwritten": self.unwritten(),
            "place": list(placed.entries_of(self, "place", placed.rows(self))),
            "path": list(placed.entries_of(self, "path", placed.left_paths(self))),
            "hint": list(hinted.entries(self)),
            "late": [self.late_entry(*group) for group in grouped.late(self)],
        }

    def summary(self, limit, entries):
        trace = self.trace
        words = [event[0] for event in trace.events]
        lost, pairs = self.lost_stores(), self.pairs()
        counts = {kind: (sum(word in words_of for word in words)) for kind, words_of in (("flushes", ANY_FLUSH), ("fences", FENCES))}
        for kind, words_of in (("flushes", ANY_FLUSH), ("fences", FENCES)):
            dropped = sum(trace.event(number)[0] in words_of for number in self.all_dropped())
            counts[f"{kind}_dropped"] = dropped
            counts[f"{kind}_dropped_percent"] = 100 * dropped // counts[kind] if counts[kind] else 0
        return {
            "kind": "summary",
            "schema": 4,
            "verdict": self.told.verdict,
            "lacks": [],
            "asked": self.asked_words(),
            "events": self.end,
            "threads": len({event[1] for event in trace.events}),
            "cache_lines": len(trace.lines(self.end)),
            "assertions": sum(word.startswith("is") for word in words),
            "failing": len(self.failing()),
            "stores": words.count("store"),
            "never_persisted": sum(not self.is_ignored(store) for store in lost),
            "ignored_never_persisted": sum(self.is_ignored(store) for store in lost),
            "ignored_overwritten": sum(self.is_ignored(earlier) for earlier, _ in pairs),
            "limit": limit,
            "more": {kind: max(0, len(found) - limit) for kind, found in entries.items()},
            **counts,
        }

    def asked_words(self):
        wanted = self.asked["range"]
        return {**self.asked, "range": wanted and {**wanted, "address": hex(wanted["address"])}}

    def lines(self, limit):
        """What the JSON must have, but for what mends."""
        entries = self.all_entries()
        shown = itertools.chain.from_iterable(found[:limit] for found in entries.values())
        return [self.summary(limit, entries), *shown]


def with_events(trace, after, events):
    """The trace with these events put in after so many."""
    return Trace(trace.size, [*trace.events[:after], *events, *trace.events[after:]])


def without(trace, number):
    """The trace without this event."""
    return Trace(trace.size, [*trace.events[: number - 1], *trace.events[number:]])


def put_in(explained, mend):
    """The events that the mend wants put in."""
    if mend["mend"] == "fence":
        return [("sfence", mend["thread"])]
    if mend["mend"] == "flush_and_fence":
        return [("clwb", 0, int(mend["cache_line"], 16)), ("sfence", 0)]
    store = mend["store"]
    flushed = [] if mend["same_line"] else [("clwb", 0, explained.trace.line(store) * explained.trace.size), ("sfence", 0)]
    return [explained.trace.event(store), *flushed]


def is_mended(explained, mend, stores, place):
    """Whether what is told, put in as early and as late as it says, makes the stores safe by the place."""
    trace, new = explained.trace, put_in(explained, mend)
    latest = len(trace.events) if mend["before"] is None else mend["before"] - 1
    if not mend["after"] <= latest or latest != place:
        return False
    mended = (with_events(trace, at, new) for at in (mend["after"], latest))
    return all(with_new.is_safe(store, place + len(new)) for with_new in mended for store in stores)


def keeps_alone(trace, kept, lost, end):
    """Whether a crash after at most so many events keeps the one store and loses the other."""
    states = itertools.chain.from_iterable(trace.reached[kept : end + 1])
    return any(trace.is_persisted(done, kept) and not trace.is_persisted(done, lost) for done in states)


def is_stored_first(explained, entry, mend):
    """Whether the store, made as early and as late as is told, is in no crash up to the assertion lost without the kept one."""
    trace, lost, kept = explained.trace, entry["lost"]["store"]["event"], entry["kept"]["store"]["event"]
    wanted = {"mend": "store_first", "store": lost, "before": kept, "same_line": trace.line(lost) == trace.line(kept)}
    if mend != wanted or not entry["place"] == kept < lost:
        return False
    store, *flushed = put_in(explained, mend)
    for at in (0, kept - 1):
        early = with_events(without(trace, lost), at, [store])
        for behind in (at + 1, kept):
            mended = with_events(early, behind, flushed)
            number = kept + 1 + len(flushed)
            if mended.event(number) != trace.event(kept) or keeps_alone(mended, number, at + 1, entry["event"]["event"] + len(flushed)):
                return False
    return True


def failure_is_mended(explained, entry, mend):
    if mend["mend"] == "store_first":
        return is_stored_first(explained, entry, mend)
    return is_mended(explained, mend, [entry["lost"]["store"]["event"]], entry["place"] - 1)


def group_is_mended(explained, entry, mend):
    end = explained.end
    stores = [
        store
        for store in explained.lost_stores()
        if not explained.is_ignored(store)
        and explained.is_asked("never_persisted", store)
        and explained.address(explained.trace.line(store)) == entry["cache_line"]
        and explained.cause(store, end) == entry["cause"]
    ]
    return mend["mend"] != "store_first" and mend["before"] is None and is_mended(explained, mend, stores, end)


MENDED = {"failure": failure_is_mended, "never_persisted": group_is_mended}


def judged(explained, told, limit):
    """What is wrong with the JSON of a trace."""
    entries = [json.loads(line) for line in told.decode().splitlines()]
    mends = [(entry, entry.pop("mend")) for entry in entries if entry["kind"] in MENDED]
    wanted = explained.lines(limit)
    if entries != wanted:
        differing = next((pair for pair in itertools.zip_longest(entries, wanted) if pair[0] != pair[1]), None)
        return f"it wrote\n{differing[0]}\nwanted\n{differing[1]}"
    wrong = [mend for entry, mend in mends if not MENDED[entry["kind"]](explained, entry, mend)]
    return f"does not mend: {wrong}" if wrong else None
