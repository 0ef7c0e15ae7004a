"""The words of the command line."""
import argparse
import os
import re

from faults import WRONG_WORDS, Fault

HELP = """\
Runs a recovery, or another checker, on the pool as crashes leave it.

Usage: pmtrim-replay [--at PLACES] [--off K] [--hold WHAT].. [--jobs N] [--keep DIR]
                     [--seconds S] TRACE -- CHECKER [ARGUMENT]..
       pmtrim-replay --base PART

Arguments:
  TRACE       the trace; beside it the pool's bytes from before. Behind -- too if it begins with -
  CHECKER     the program that runs on each image
  ARGUMENT..  its words, one of which has {}

Options:
  --at PLACES   other places: numbers and ranges of them, as 12,40-60; each number of a range is a
                place
  --off K       how many cache lines may be off, 0 to 64 (1)
  --hold WHAT   leaves a cache line at its front in all crashes: that of an address, as 0x1040, or
                those to which a place stores, as 'stats.c:12 bump' or 'stats.c:*', by the labels;
                may be given more than once
  -j, --jobs N  how many checkers run at once (one for each processor)
  --keep DIR    keeps in DIR what the checkers said, and the images of the first 20 that failed. The
                same words go on where a run was stopped
  --seconds S   how long a checker may take, in whole seconds (60); after that it is killed, and has
                failed
  --base PART   runs nothing, and writes PART.base and PART.origin: the pool's bytes with what no
                crash can lose where this part of a long trace begins, by those of the parts before
                it
  --help        says this
  --version     says which version it is

Makes the pool as crashes of the run that TRACE records leave it, and runs CHECKER on each of these
images: a recovery, a test of what it leaves, a tool such as `pmempool check`. It fails where its
status is not 0. {} among its words is the path of the image, which is its own copy; {2}, {3} .. are
those of further pools. The pool's bytes before the trace stand in TRACE.base and its first address
in TRACE.origin, as recorders write them: PMTRACE_BASE=1, or pmtrim-record --base.

The images, each once. At each place, that is after so many events, a crash leaves of each cache
line a number of its stores, the first ones: no fewer than its front, those that no crash can lose,
and no more than its count, all those so far. Taken are all crashes where at most K cache lines are
off their front, and all where at most K are off their count. Crashes that leave the same bytes are
one image, of the first place. The places are those where crashes turn: right after each fence and
each clflush, and right after a store, or at the beginning, where no store comes next. Right before
and right after any flush, fence or claim, and at the end, a crash leaves just what one leaves at
such a place. With a K as large as the number of cache lines these are all crashes of the run.
`pmtrim image --list` tells them.

A run that is stopped says so in the first line of its answer, which is of the images until then,
and ends by the signal. PMTRIM in the environment names the program pmtrim.

Failures are told in groups, by the sites of a store that is kept and an earlier one that is lost:
lines of source by TRACE.labels, or else threads; with the command that shows the first of a group.

Statuses: 0 no checker failed; 1 one did; 2 wrong words, or DIR has the results of another run;
3 the trace or its base is refused; 4 a file can't be read or written; 5 out of memory; 6 an image
is not what was foreseen; 129 it was stopped by SIGHUP, as a shell tells it; 130 by SIGINT; 143 by
SIGTERM
Example: PMTRACE_BASE=1 ./engine && pmtrim-replay engine.trace -- ./engine --recover {}"""

RANGE = re.compile(r"(\d{1,7})(?:-(\d{1,7}))?")
MOST_OFF, MOST_JOBS, MOST_SECONDS = 64, 1024, 1_000_000


class Parser(argparse.ArgumentParser):
    """Tells wrong words in a line."""

    def error(self, message):
        raise Fault(WRONG_WORDS, f"{message}; pmtrim-replay --help says more")


def number_between(least, most):
    """Reads a number within bounds."""

    def read(text):
        if not re.fullmatch(r"\d{1,7}", text) or not least <= int(text) <= most:
            raise argparse.ArgumentTypeError(f"{text} is no number from {least} to {most}")
        return int(text)

    return read


def read_places(text):
    """The ranges of places that are asked for, as pairs of the first and the last."""
    ranges = []
    for piece in text.split(","):
        found = RANGE.fullmatch(piece)
        first, last = (int(found[1]), int(found[2] or found[1])) if found else (1, 0)
        if first > last:
            raise argparse.ArgumentTypeError(f"{piece!r} is no place and no range as 40-60")
        ranges.append((first, last))
    return ranges


def part_asked(words):
    """The part whose base is asked for; None where none is."""
    if "--base" not in words[: words.index("--")] if "--" in words else "--base" not in words:
        return None
    if len(words) != 2 or words[0] != "--base" or not words[1]:
        raise Fault(WRONG_WORDS, "--base takes a part of a trace, and stands alone; pmtrim-replay --help says more")
    return words[1]


def take_words(words):
    """The options, with `trace` and `checker`; Fault where they are wrong."""
    parser = Parser(prog="pmtrim-replay", add_help=False, allow_abbrev=False)
    parser.add_argument("--at", type=read_places)
    parser.add_argument("--off", type=number_between(0, MOST_OFF), default=1)
    parser.add_argument("--hold", action="append", default=[])
    parser.add_argument("-j", "--jobs", type=number_between(1, MOST_JOBS), default=len(os.sched_getaffinity(0)))
    parser.add_argument("--seconds", type=number_between(1, MOST_SECONDS), default=60)
    parser.add_argument("--keep")
    parser.add_argument("trace", metavar="TRACE", nargs="?")
    if "--" not in words:
        raise Fault(WRONG_WORDS, "no checker is given: it stands behind --; pmtrim-replay --help says more")
    at = words.index("--")
    options = parser.parse_args(words[:at])
    options.checker = words[at + 1 :]
    if options.trace is None and options.checker[1:2] == ["--"]:  # its name begins with -
        options.trace, options.checker = f"./{options.checker[0]}", options.checker[2:]
    if options.trace is None:
        raise Fault(WRONG_WORDS, "no trace is given; pmtrim-replay --help says more")
    if not options.checker:
        raise Fault(WRONG_WORDS, "no checker is given behind --; pmtrim-replay --help says more")
    if not any("{}" in word for word in options.checker[1:]):
        raise Fault(WRONG_WORDS, "no word of the checker has {}, which stands for the image's path; pmtrim-replay --help says more")
    return options
