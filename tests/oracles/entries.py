"""What a first screen of `explain` tells, by the definitions: sites that lose or delay stores, what says whether that
is meant, sites that are told together, entries by weight, and the verdict.

What becomes of each store is found by the fronts of cache lines, in one pass over the events. Hints and causes of
failed assertions are given, as the JSON has them; hinted.py and grouped.py judge them. Sites are keys, as placed.py
has them.
"""
import collections
from typing import NamedTuple

from grouped import ANY_FLUSH, grouped
from machine import FENCES
from placed import CALLER, LEAST, is_left, standing

WEIGHTS = ("fail", "lost", "suspect", "check", "meant")
FAILING = ("fail", "lost", "suspect")
LOSES_ALL = 3
ASSERTIONS = ("isPersist", "isOrderedBefore")


class Run:
    """The events of a trace with their labels, and what becomes of them: which event makes a store safe, which flushes
    and fences are kept, which stores assertions claim that pass, and which stores are clear: their thread has no flush
    that waits for a fence."""

    def __init__(self, size, events, labels, is_ignored=lambda store: False):
        self.size, self.events, self.labels, self.is_ignored = size, events, labels, is_ignored
        self.numbers, self.past = range(1, len(events) + 1), len(events) + 1
        self.safe, self.kept, self.claimed, self.clear = {}, set(), set(), set()
        self.stores, self.fences = collections.defaultdict(list), collections.defaultdict(list)
        self.fronts, self.open, self.memory = collections.Counter(), collections.defaultdict(dict), {}
        for number in self.numbers:
            self.take(number, *self.event(number))

    def event(self, number):
        return self.events[number - 1]

    def word(self, number):
        return self.event(number)[0]

    def thread(self, number):
        return self.event(number)[1]

    def line(self, number):
        return self.event(number)[2] // self.size

    def of(self, *words):
        """The events of these words."""
        return [number for number in self.numbers if self.word(number) in words]

    def take(self, number, word, thread, *fields):
        """One event more."""
        if word == "store":
            self.clear |= set() if self.open[thread] else {number}
            self.stores[self.line(number)].append(number)
            self.memory.update(dict.fromkeys(range(fields[0], fields[0] + len(fields[1])), number))
        elif word == "clflush":
            self.persist(number, self.line(number), len(self.stores[self.line(number)]))
        elif word in ANY_FLUSH:
            self.open[thread][self.line(number)] = (len(self.stores[self.line(number)]), number)
        elif word in FENCES:
            self.fences[thread].append(number)
            for line, (count, flush) in self.open.pop(thread, {}).items():
                self.kept |= {flush} if self.persist(number, line, count) else set()
        else:
            self.claim(*(self.last_stores(*fields[at : at + 2]) for at in range(0, len(fields), 2)))

    def persist(self, number, line, count):
        """Makes the first stores of the line safe; whether one of them was not."""
        fresh = self.stores[line][self.fronts[line] : count]
        self.safe.update(dict.fromkeys(fresh, number))
        self.fronts[line] += len(fresh)
        self.kept |= {number} if fresh else set()
        return bool(fresh)

    def last_stores(self, start, length):
        return {self.memory[byte] for byte in range(start, start + length) if byte in self.memory}

    def claim(self, first, second=None):
        """An assertion passes if each store of the first range is safe; or else is so at each store of the second one, or
        before that in its line."""
        if second is None:
            passes = first <= self.safe.keys()
        else:
            passes = all(self.is_before(store, mark) for store in first for mark in second)
        if passes:
            self.claimed |= first

    def is_before(self, store, mark):
        return self.safe.get(store, self.past) < mark or self.line(store) == self.line(mark) and store <= mark

    # Of one event

    def path(self, number):
        return ("label", self.labels[number]) if number in self.labels else ("thread", self.thread(number))

    def site(self, number):
        kind, name = self.path(number)
        return (kind, name.partition(CALLER)[0]) if kind == "label" else (kind, name)

    def next_fence(self, number):
        """The next fence of the event's thread; one past the end without one."""
        return next((fence for fence in self.fences[self.thread(number)] if fence > number), self.past)

    def waited(self, store):
        return sum(store < fence < self.safe.get(store, self.past) for fence in self.fences[self.thread(store)])

    def fate(self, store):
        if store in self.safe:
            return "late" if self.waited(store) >= 2 else "in_time"
        return "ignored" if self.is_ignored(store) else "never_persisted"

    def is_missed(self, number):
        return self.word(number) == "store" and self.fate(number) in ("never_persisted", "late")

    def is_waiting(self, number):
        """A store that two fences of its thread or more leave unsafe, ignored or not."""
        return self.word(number) == "store" and self.waited(number) >= 2

    def is_left(self, number):
        return self.word(number) == "store" and number in self.safe and self.waited(number) == 1

    def counted(self, number):
        """What an event counts as."""
        if self.word(number) == "store":
            yield from ["stores", self.fate(number), *["left"] * self.is_left(number)]
        elif self.word(number) in (*ANY_FLUSH, *FENCES) and number not in self.kept:
            yield "fences_dropped" if self.word(number) in FENCES else "flushes_dropped"

    def asserted(self, number):
        """The lines of the bytes of an assertion's ranges."""
        fields = self.event(number)[2:]
        ranges = [range(fields[at], fields[at] + fields[at + 1]) for at in range(0, len(fields), 2)]
        return {byte // self.size for span in ranges for byte in span}

    def has_contrast(self, flush):
        """Whether most stores to the address that the flush's thread stores to next, in another line, and from the same
        site as that store, are clear."""
        stores, key = self.of("store"), (self.thread(flush), self.line(flush))
        later = ((self.thread(store), self.line(store), store) for store in stores if store > flush)
        partner = next(store for thread, line, store in later if thread == key[0] and line != key[1])
        spot = lambda store: (self.event(store)[2], self.site(store))
        same = {store for store in stores if spot(store) == spot(partner)}
        return 2 * len(same & self.clear) > len(same)

    # Of sites and paths

    def rows(self, key_of):
        """Of each site or path, in the order in which they are told, its events and how many have which fate."""
        found = collections.defaultdict(list)
        for number in self.numbers:
            found[key_of(number)].append(number)
        count = lambda numbers: collections.Counter(fate for number in numbers for fate in self.counted(number))
        rows = ((key, numbers, count(numbers)) for key, numbers in found.items())
        return sorted(rows, key=lambda row: (standing(row[2]), row[1][0]))

    def keeps_before(self, numbers):
        """Whether a crash at the fence that leaves the first of these unsafe keeps what became safe after it."""
        first = next(filter(self.is_left, numbers))
        return any(first < place <= self.next_fence(first) for place in self.safe.values())


class Site(NamedTuple):
    """A site that loses or delays stores."""

    key: tuple
    loses: bool
    first: int
    thread: int
    fence: int
    missed: int
    stores: int
    sign: int | None
    has_contrast: bool
    is_scratch: bool
    is_claimed: bool

    @property
    def weight(self):
        if self.is_scratch or self.loses:
            return "meant" if self.is_scratch else "lost"
        return "suspect" if self.sign is not None or self.has_contrast else "meant" if self.is_claimed else "check"

    @property
    def loss_key(self):
        return self.loses, self.weight == "meant", self.thread, self.fence


class Entry(NamedTuple):
    """What is told in one piece: its weight, what it is of, and why; where, and of how many events, with the first; and
    what is known of a loss."""

    word: str
    subject: str
    why: str
    sites: list
    count: int
    first: int
    of: int | None = None
    path: str | None = None
    sign: str | None = None
    contrast: bool = False
    claimed: bool = False
    scratch: bool = False


class Entries:
    """The entries of a run with these hints, and with failed assertions by these causes."""

    def __init__(self, run, hints, causes):
        self.run, self.hints, self.causes = run, hints, causes
        self.hinted = [origin_of(hint) for hint in hints]
        self.places, self.paths = run.rows(run.site), run.rows(run.path)
        first = min((store for _, numbers, _ in self.places for store in self.lost(numbers)), default=0)
        after = lambda *words: [number for number in run.of(*words) if number > first]
        flushed, asserted = map(run.line, after(*ANY_FLUSH)), map(run.asserted, after(*ASSERTIONS))
        self.spoken = set(flushed).union(*asserted)
        lost = [self.lost(numbers) for _, numbers, counts in self.places if self.is_lone_scratch(numbers, counts)]
        self.scratch = {run.line(stores[0]) for stores in lost}
        self.sites = [self.site(*row) for row in self.places if any(map(run.is_missed, row[1]))]
        found = [*self.failures(), *self.losses(), *self.hint_entries(), *self.left(), *self.left_paths()]
        self.entries = sorted(found, key=lambda entry: WEIGHTS.index(entry.word))

    # Sites

    def site(self, key, numbers, counts):
        run, missed, lost = self.run, list(filter(self.run.is_missed, numbers)), self.lost(numbers)
        first = min(lost or missed)
        return Site(
            key,
            loses=bool(lost),
            first=first,
            thread=run.thread(first),
            fence=run.next_fence(first),
            missed=len(missed),
            stores=counts["stores"],
            sign=next((index for index in range(len(self.hints)) if self.is_sign(index, key, first)), None),
            has_contrast=self.has_contrast(key, missed, counts),
            is_scratch=self.is_untouched(numbers, counts) and not self.scratch.isdisjoint(map(run.line, lost[:1])),
            is_claimed=not lost and set(filter(run.is_waiting, numbers)) <= run.claimed,
        )

    def is_sign(self, index, key, first):
        """Whether the hint tells why the site with this first lost or late store misses it."""
        run, kind, flush = self.run, self.hints[index]["hint"], self.hints[index]["first"]["event"]
        if kind != "one_line_short":
            return kind == "stored_after_flush" and self.hinted[index] == key
        is_same_call = run.next_fence(flush) == run.next_fence(first) and run.thread(flush) == run.thread(first)
        return is_same_call and run.line(flush) + 1 == run.line(first)

    def has_contrast(self, key, missed, counts):
        """Whether the site misses fewer than half of its stores, and each of its paths either none or all of them."""
        paths = [found for _, numbers, found in self.paths if self.run.site(numbers[0]) == key]
        is_mixed = any(found["in_time"] and found["never_persisted"] + found["late"] for found in paths)
        return 2 * len(missed) < counts["stores"] - counts["ignored"] and not is_mixed

    def lost(self, numbers):
        return [store for store in filter(self.run.is_missed, numbers) if store not in self.run.safe]

    def is_untouched(self, numbers, counts):
        """Whether the site loses all, in lines that nothing flushes or asserts after the first store that is lost."""
        return standing(counts)[0] == LOSES_ALL and not any(self.run.line(store) in self.spoken for store in self.lost(numbers))

    def is_lone_scratch(self, numbers, counts):
        """Whether it does so twice or more, first and last to one address."""
        if not self.is_untouched(numbers, counts) or len(self.lost(numbers)) < 2:
            return False
        stores = [self.run.event(store) for store in self.lost(numbers)]
        return stores[0][2] == stores[-1][2]

    # Entries

    def failures(self):
        for cause in self.causes:
            yield Entry("fail", "failure", cause["why"], [origin_of(cause)], cause["count"], cause["events"][0])

    def losses(self):
        """Sites that first miss stores in the same call; what is known of a loss is of its first site."""
        groups = grouped((site.loss_key, index) for index, site in enumerate(self.sites))
        for _, indexes in sorted(groups, key=lambda group: group[1][0]):
            sites, one = [self.sites[index] for index in indexes], self.sites[indexes[0]]
            weight = min((site.weight for site in sites), key=WEIGHTS.index)
            why = "never_persisted" if one.loses else "late"
            sign = None if one.sign is None else self.hints[one.sign]["hint"]
            known = {"sign": sign, "contrast": one.has_contrast, "claimed": one.is_claimed, "scratch": one.is_scratch}
            yield Entry(weight, "stores", why, [site.key for site in sites], one.missed, one.first, one.stores, **known)

    def hint_entries(self):
        signs, missing = {site.sign for site in self.sites}, {site.key for site in self.sites}
        for index, (hint, key) in enumerate(zip(self.hints, self.hinted)):
            is_told = hint["hint"] == "stored_after_flush" and key in missing
            weight = None if index in signs or is_told else self.hint_weight(hint)
            if weight:
                first = hint["first"]["event"]
                yield Entry(weight, "hint", hint["hint"], [key], hint["count"], first, path=hint["path"])

    def hint_weight(self, hint):
        """How much a hint weighs that is no sign; none of a small thing."""
        if hint["hint"] != "open_at_store":
            return None if hint["hint"] == "split_word" else "check"
        if hint["count"] < LEAST:
            return None
        return "suspect" if self.run.has_contrast(hint["first"]["event"]) else "check"

    def left(self):
        for key, numbers, counts in self.places:
            is_told = is_left(counts) and counts["left"] >= LEAST and key not in self.hinted
            if is_told and self.run.keeps_before(numbers):
                yield self.left_entry(key, numbers, counts)

    def left_paths(self):
        whole = {key for key, _, counts in self.places if is_left(counts)}
        for key, numbers, counts in self.paths:
            site = self.run.site(numbers[0])
            if is_left(counts) and counts["left"] >= LEAST and site not in {*whole, *self.hinted}:
                yield self.left_entry(site, numbers, counts, path=key[1])

    def left_entry(self, site, numbers, counts, path=None):
        first = next(filter(self.run.is_left, numbers))
        return Entry("check", "left", "left", [site], counts["left"], first, counts["stores"], path)

    # The verdict

    @property
    def verdict(self):
        weights = [entry.word for entry in self.entries if entry.word != "meant"]
        stores = self.run.of("store")
        if not stores:
            return "nothing"
        if weights:
            return weights[0]
        if any(self.run.fate(store) == "never_persisted" for store in stores):
            return "probably_ok"
        return "ok" if self.run.of(*ASSERTIONS) else "ok_so_far"

    def status(self, is_strict=False, knows_losses=True):
        """What `explain` ends with. Where it is not known what is lost, that is something to look at."""
        weights = {"check" if entry.word == "lost" and not knows_losses else entry.word for entry in self.entries}
        return int(bool(weights & set(FAILING)) or is_strict and ("check" in weights or self.verdict == "probably_ok"))


def origin_of(told):
    """The site of a hint or a cause."""
    return ("thread", told["thread"]) if told["label"] is None else ("label", told["label"])
