"""Failed assertions of one claim, reason and place that may lose or keep stores of several places, told apart."""
from typing import NamedTuple

from events import events_in

AT_ONCE = 400  # failed assertions that one answer has in full
WANTED_EVENTS = 200_000_000  # so many events are gone over, for a run or a part of one: some ten seconds


class Alike(NamedTuple):
    """Failed assertions of one group to whose ranges the same places have stored; and whether each range has stores of one place alone, so that
    all lose and keep the same."""

    group: object
    events: list
    are_one: bool

    def asked(self, most):
        """Those that are told in full: of others it is taken that they lose and keep what the first one does."""
        return self.events[:1] if self.are_one else self.events[:most]


def most_asked(alike, events):
    """How many failed assertions of those that are alike are told in full, in a trace of so many events."""
    several = sum(not each.are_one for each in alike)
    return max(1, WANTED_EVENTS // max(1, events * several))


def alike_in(trace, groups, places):
    """The assertions of these groups, those together that can't be told apart by which places have stored to their ranges."""
    if all(len(group.events) < 2 for group in groups):
        return [Alike(group, group.events, True) for group in groups if group.events]
    owners = {event: group for group in groups for event in group.events}
    found = {}
    for event, stored in stored_places(trace, owners, places):
        found.setdefault((id(owners[event]), stored), []).append(event)
    return [Alike(owners[events[0]], events, all(mask & (mask - 1) == 0 for mask in stored)) for (_, stored), events in found.items()]


def stored_places(trace, claims, places):
    """Of each of these assertions its number, and for each of its ranges which places have stored to its words by then: a bit each."""
    bits, written = {}, {}
    for number, line, label in events_in(trace):
        word, _, *fields = line.split()
        if word == "store":
            address = int(fields[0], 16) >> 3
            written[address] = written.get(address, 0) | 1 << bits.setdefault(places.of(label).name, len(bits))
        elif number in claims:
            yield number, tuple(union(written, int(address, 16), int(length)) for address, length in zip(fields[::2], fields[1::2]))


def union(written, address, length):
    """Which places have stored to the words of a range."""
    stored = 0
    for word in range(address >> 3, (address + length - 1 >> 3) + 1):
        stored |= written.get(word, 0)
    return stored
