"""The options of the command line."""
import argparse
import os
import re
import shlex

from causes import FAILING, KINDS
from faults import WRONG_WORDS, Fault
from runs import Shard

HELP = """\
Records the programs of a test suite, and merges what pmtrim explains of all their traces.

Usage: pmtrim-suite record DIR [--own] [--parts] [--with OPTIONS] -- COMMAND [ARGUMENT]..
       pmtrim-suite report DIR [--baseline FILE] [--sarif FILE] [--junit FILE] [--html DIR] ..
       pmtrim-suite merge OUT [--baseline FILE] [--sarif FILE] [--junit FILE] .. REPORT..

Commands:
  record  Runs a command, and gives each process that maps a pool its folder below DIR.
  report  Explains the traces below DIR, and says which causes are new, where, and how often.
  merge   Makes one report of those of shards.

Options:
  --help     says this
  --version  says which version it is

pmtrim-suite COMMAND --help has the options. PMTRIM and PMTRIM_RECORD in the environment name the
programs pmtrim and pmtrim-record.

Statuses: 0 nothing is new; 1 a cause is new; 2 wrong options; 3 a trace, labels or a report are
refused; 4 a file can't be read or written; 5 out of memory; of record, that of COMMAND, or 2 or 4
Example: pmtrim-suite record runs -- make check && pmtrim-suite report runs"""

RECORD = """\
Runs a command, and gives each process that maps a pool its folder below DIR: trace, labels, command
line, status.

Usage: pmtrim-suite record DIR [--own] [--parts] [--with OPTIONS] -- COMMAND [ARGUMENT]..

Arguments:
  DIR         the folder of the runs: a new one, or one that record made
  COMMAND     the program that runs the tests
  ARGUMENT..  its arguments

Options:
  --own           records only programs that record themselves, by pmtrace.h or in the place of
                  libpmem: without Valgrind, and so much faster
  --parts         records runs of any length: a trace that is too long for pmtrim is cut into parts
                  when the command has ended
  --with OPTIONS  options for pmtrim-record, in one word, as '--pmdk --pool-prefix /mnt/pmem/'; may
                  be given more than once
  --help          says this

COMMAND and all programs that it begins run by pmtrim-record --trace-children, and programs that
record themselves by PMTRACE_FOLDER; of a process that does both, its own trace is taken. Build the
programs before: a compiler need not be recorded. Runs of an earlier record in DIR are replaced when
the command has ended.

Statuses: 2 wrong options; 4 a file can't be read or written; else that of COMMAND
Example: pmtrim-suite record runs -- make check"""

OUTPUTS = """\
  --baseline FILE    the causes that are known, a line each, with why; it need not be there yet
  --update-baseline  adds those that are new to FILE
  --sarif FILE       writes the causes as SARIF 2.1.0, for build servers and editors; - is standard
                     output, and then what people read goes to standard error
  --junit FILE       writes the runs as JUnit XML; a run with a new cause has failed, and one that
                     ended with a status is an error; - as for --sarif
  --format HOW       how to say what is new: in full, or a line each as compilers do, or as GitHub
                     takes it from a log [default: text] [possible values: text, gcc, github]
  --fail-on KIND..   which kinds of causes may be new [default: failure never_persisted]
                     [possible values: failure, never_persisted, late, dropped, overwritten,
                     unwritten, hint, cut, empty]
"""

REPORT = f"""\
Explains the traces below DIR, and says which causes are new, where, and how often.

Usage: pmtrim-suite report DIR [--baseline FILE] [--update-baseline] [--sarif FILE] [--junit FILE]
                           [--format HOW] [--html DIR] [--fail-on KIND..] [--source DIR]
                           [--shard I/N] [--jobs N]

Arguments:
  DIR  the folder of the runs: each file below it named trace or *.trace is one, but the parts that
       pmtrim parts writes are one together

Options:
{OUTPUTS}\
  --html DIR         writes a page of one run for each cause, and index.html with links to them
  --source DIR       the folder of the sources (the current one): files below it are named from
                     there, and their lines stand on the pages
  --shard I/N        explains only the runs I, I + N, I + 2 N .. by name; merge joins the reports
  --jobs N           how many runs are explained at once (one for each processor)
  --help             says this

The report stands in DIR/report.json too, that of a shard in DIR/report-I-of-N.json. A run that is
unchanged since the last report is not explained again.

The status is the greatest of those that apply.

Statuses: 0 nothing is new; 1 a cause is new; 2 wrong options; 3 a trace, labels or the baseline are
refused; 4 a file can't be read or written; 5 out of memory
Example: pmtrim-suite report runs --baseline pmtrim.baseline"""

MERGE = f"""\
Makes one report of those of shards, or of several folders.

Usage: pmtrim-suite merge OUT [--baseline FILE] [--update-baseline] [--sarif FILE] [--junit FILE]
                          [--format HOW] [--fail-on KIND..] REPORT..

Arguments:
  OUT       the report that is written, as JSON
  REPORT..  those of all shards, as DIR/report-1-of-4.json

Options:
{OUTPUTS}\
  --help             says this

Statuses: 0 nothing is new; 1 a cause is new; 2 wrong options; 3 a report or a run is refused; 4 a
file can't be read or written, or a shard is missing; 5 out of memory
Example: pmtrim-suite merge report.json runs/report-*.json --baseline pmtrim.baseline"""

HELPS = {"record": RECORD, "report": REPORT, "merge": MERGE}
MOST_JOBS = 1024
OWN_OPTIONS = ("--trace", "--trace-children", "--seeds", "--one-trace", "--process", "--parts", "--whole")


class Parser(argparse.ArgumentParser):
    """Tells wrong options in a line."""

    def error(self, message):
        raise Fault(WRONG_WORDS, f"{message}; {self.prog} --help says more")


def number_between(least, most):
    """Reads a number within bounds."""

    def read(text):
        if not re.fullmatch(r"\d{1,7}", text) or not least <= int(text) <= most:
            raise argparse.ArgumentTypeError(f"{text} is no number from {least} to {most}")
        return int(text)

    return read


def read_shard(text):
    found = re.fullmatch(r"(\d{1,5})/(\d{1,5})", text)
    if found is None or not 1 <= int(found[1]) <= int(found[2]):
        raise argparse.ArgumentTypeError(f"{text} is no shard as 1/4")
    return Shard(int(found[1]), int(found[2]))


def kinds_joined(words):
    """The words, with the kinds behind --fail-on in one word: as many as there are."""
    words, joined = list(words), []
    while words:
        word = words.pop(0)
        if word == "--fail-on":
            kinds = []
            while words and all(kind in KINDS for kind in words[0].split(",")):
                kinds.append(words.pop(0))
            word = f"--fail-on={','.join(kinds) or (words or [''])[0]}"
        joined.append(word)
    return joined


def read_kinds(text):
    wrong = [kind for kind in text.split(",") if kind not in KINDS]
    if wrong:
        raise argparse.ArgumentTypeError(f"there is no kind {wrong[0]!r}, but {', '.join(KINDS)}")
    return tuple(text.split(","))


def add_outputs(parser):
    parser.add_argument("--baseline")
    parser.add_argument("--update-baseline", action="store_true")
    parser.add_argument("--sarif")
    parser.add_argument("--junit")
    parser.add_argument("--format", choices=("text", "gcc", "github"), default="text")
    parser.add_argument("--fail-on", type=read_kinds, default=FAILING)


def check_outputs(options, command):
    if options.update_baseline and options.baseline is None:
        raise Fault(WRONG_WORDS, f"--update-baseline wants --baseline FILE; pmtrim-suite {command} --help says more")
    return options


def record_words(words):
    """The options of record, with `command`."""
    parser = Parser(prog="pmtrim-suite record", add_help=False, allow_abbrev=False)
    parser.add_argument("--own", action="store_true")
    parser.add_argument("--parts", action="store_true")
    parser.add_argument("--with", dest="with_options", metavar="OPTIONS", action="append", default=[])
    parser.add_argument("folder", metavar="DIR")
    if "--" not in words:
        raise Fault(WRONG_WORDS, "no command is given: it stands behind --; pmtrim-suite record --help says more")
    at = words.index("--")
    options = parser.parse_args(options_joined(words[:at]))
    options.command = words[at + 1 :]
    if not options.command:
        raise Fault(WRONG_WORDS, "no command is given behind --; pmtrim-suite record --help says more")
    options.with_options = [word for text in options.with_options for word in split_options(text)]
    if options.own and options.with_options:
        raise Fault(WRONG_WORDS, "--own and --with don't go together: without pmtrim-record there is nothing that takes OPTIONS")
    return options


def options_joined(words):
    """The words, with what stands behind --with in one word: it may begin with a dash."""
    words, joined = list(words), []
    while words:
        word = words.pop(0)
        joined.append(f"{word}={words.pop(0)}" if word == "--with" and words else word)
    return joined


def split_options(text):
    try:
        words = shlex.split(text)
    except ValueError as error:
        raise Fault(WRONG_WORDS, f"--with {text!r}: {error}") from error
    for word in words:
        if word.partition("=")[0] in OWN_OPTIONS:
            raise Fault(WRONG_WORDS, f"--with takes no {word.partition('=')[0]}: it is given by pmtrim-suite")
    return words


def report_words(words):
    parser = Parser(prog="pmtrim-suite report", add_help=False, allow_abbrev=False)
    add_outputs(parser)
    parser.add_argument("--html")
    parser.add_argument("--source", default=".")
    parser.add_argument("--shard", type=read_shard, default=Shard(1, 1))
    parser.add_argument("--jobs", type=number_between(1, MOST_JOBS), default=len(os.sched_getaffinity(0)))
    parser.add_argument("folder", metavar="DIR")
    return check_outputs(parser.parse_args(kinds_joined(words)), "report")


def merge_words(words):
    parser = Parser(prog="pmtrim-suite merge", add_help=False, allow_abbrev=False)
    add_outputs(parser)
    parser.add_argument("out", metavar="OUT")
    parser.add_argument("reports", metavar="REPORT", nargs="+")
    return check_outputs(parser.parse_intermixed_args(kinds_joined(words)), "merge")
