"""The events of a trace with their labels, one after another; and labels files with other texts for some events."""
import heapq
import os


def labels_in(trace):
    """Of the labelled events of a trace the numbers and the labels, by rising number. What is no labels file is refused when the run is explained."""
    if not os.path.lexists(f"{trace}.labels"):
        return
    with open(f"{trace}.labels", encoding="utf-8", errors="surrogateescape", newline="\n") as file:
        for line in file:
            number, _, label = line.rstrip("\n").partition(" ")
            if number.isdecimal():
                yield int(number), label


def events_in(trace):
    """The number of each event, its line in the trace, and its label, or an empty text."""
    labels = labels_in(trace)
    labelled, label = next(labels, (0, ""))
    with open(trace, encoding="ascii", errors="replace") as file:
        next(file, None)
        for number, line in enumerate(file, 1):
            if 0 < labelled < number:
                labelled, label = next(labels, (0, ""))
            yield number, line, label if labelled == number else ""


def relabelled(trace, numbers, name):
    """The lines of a labels file in which `name` gives these events their labels, of the number and the label before."""
    before = {number: label for number, label in labels_in(trace) if number in numbers}
    others = (pair for pair in labels_in(trace) if pair[0] not in numbers)
    for number, label in heapq.merge(((number, name(number, before.get(number, ""))) for number in sorted(numbers)), others):
        yield f"{number} {label}\n"
