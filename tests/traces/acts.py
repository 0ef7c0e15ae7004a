"""Traces with labels in a few letters: acts with spaces between.

An act is a store `s`, a flush `f` (clwb) or `F` (clflush), or a claim `p` (isPersist) or `o` (isOrderedBefore, with
`>` between its ranges), and the number of a cache line; behind that `.` and an offset in it, if that is not 0, and `x`
and a length, if that is not 1. `|` is a fence. `@` and a name may follow: the act's site, which else is the act itself.
`t1` goes on with thread 1, and `a:` with calls by way of a caller of that name.
"""
import re

LINE, FIRST = 64, 0x10000
RANGES = r"(?P<first>[\d.]*)(?:>(?P<second>[\d.]+))?(?:x(?P<length>\d+))?"
ACT = re.compile(rf"(?P<kind>[sfFpo|]){RANGES}(?:@(?P<name>\w+))?$")


def address(text):
    line, _, offset = text.partition(".")
    return FIRST + LINE * int(line) + int(offset or 0)


def event_of(act, thread):
    kind, first, second, length = act["kind"], act["first"], act["second"], int(act["length"] or 1)
    if kind == "|":
        return ("sfence", thread)
    if kind == "s":
        return ("store", thread, address(first), bytes([1]) * length)
    if kind in "fF":
        return ("clwb" if kind == "f" else "clflush", thread, address(first))
    if kind == "p":
        return ("isPersist", thread, address(first), length)
    return ("isOrderedBefore", thread, address(first), length, address(second), 1)


def read_acts(text):
    """The events, as machine.py has them, and the labels by number."""
    events, labels, thread, caller = [], {}, 0, ""
    for word in text.split():
        if word.endswith(":"):
            caller = f" < {word[:-1]}"
        elif re.fullmatch(r"t\d", word):
            thread = int(word[1:])
        else:
            act = ACT.match(word)
            events.append(event_of(act, thread))
            labels[len(events)] = (act["name"] or word) + caller
    return events, labels
