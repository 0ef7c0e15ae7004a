"""Runs in parts, as pmtrim parts writes them: which there are, and for what each answers."""
import itertools
import os
import pathlib
import re
from typing import NamedTuple

from events import events_in
from faults import REFUSED, Fault
from files import read_text

NAME = re.compile(r"(?P<prefix>.*)\.(?P<number>\d{4,})\.trace", re.S)


class Part(NamedTuple):
    """A part of a trace: its path, and what stands beside it. Numbers of the whole: its place, and for which events it answers."""

    trace: pathlib.Path
    number: int
    place: int
    carried: int
    overlap: int
    first: int
    last: int
    is_last: bool
    aside: frozenset  # numbers of its own

    @property
    def own_first(self):
        """The first event that it answers for, by its own number; one past its end if there is none."""
        return self.carried + self.overlap + 1

    @property
    def events(self):
        return self.last - self.first + 1


def series_of(names):
    """Of the names of a folder's traces those of whole ones, and by their prefixes the names of parts, in their order. A part has a file
    NAME.part beside it."""
    wholes, series = [], {}
    traces = [name for name in names if name == "trace" or name.endswith(".trace")]
    for name in traces:
        found = NAME.fullmatch(name)
        if found and f"{name}.part" in names:
            series.setdefault(found["prefix"], []).append((int(found["number"]), name))
        else:
            wholes.append(name)
    return wholes, {prefix: [name for _, name in sorted(parts)] for prefix, parts in series.items()}


def read_part(trace):
    """The part of this trace. Fault: what stands beside it is not of it."""
    path = f"{trace}.part"
    try:
        words = [line.split(" ") for line in read_text(path).splitlines()]
        told = {word[0]: word[1:] for word in words[:6]}
        number, place, carried, overlap = (int(told[name][0]) for name in ("part", "place", "carried", "overlap"))
        first, last = map(int, told["answers"])
        aside = frozenset(int(word[1]) for word in words if word[0] == "aside")
        part = Part(pathlib.Path(trace), number, place, carried, overlap, first, last, {"yes": True, "no": False}[told["last"][0]], aside)
    except (ValueError, KeyError, IndexError, TypeError) as error:
        raise Fault(REFUSED, f"{path}: this is not what pmtrim parts writes beside a part") from error
    if part.number != int(NAME.fullmatch(os.path.basename(trace))["number"]) or part.first != part.place + part.overlap + 1 or part.events < 0:
        raise Fault(REFUSED, f"{path}: this is not of this part")
    return part


def read_parts(traces):
    """The parts of a run, in their order. Fault: one is missing, or begins where none that stands before it ends."""
    parts = [read_part(trace) for trace in traces]
    for number, part in enumerate(parts, 1):
        before = parts[number - 2].last if number > 1 else 0
        if part.number != number or part.first != before + 1 or part.is_last and number < len(parts):
            raise Fault(REFUSED, f"{part.trace}: the part before it is missing, or is of another run")
    return parts


class Head(NamedTuple):
    """What stands in a part before the events that it answers for: claims, and stores by their places."""

    claims: int
    stores: dict


def read_head(part, places):
    """What an earlier part answers for."""
    claims, stores = 0, {}
    for _, line, label in itertools.islice(events_in(part.trace), part.own_first - 1):
        claims += line.startswith("is")
        if line.startswith("store "):
            place = places.of(label).name
            stores[place] = stores.get(place, 0) + 1
    return Head(claims, stores)
