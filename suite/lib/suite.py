"""The commands, and how the program ends."""
import os
import shlex
import sys

from causes import FAILING
from commands import Pmtrim
from explaining import Explainer
from faults import FILE_FAULT, NO_MEMORY, Fault
from files import write_whole
from findings import told_lines
from judging import Judged
from junit import junit_text
from pages import write_pages
from programs import find_pmtrim
from progress import Progress
from recording import record
from reports import Report, joined
from runs import check_folder, check_runs, find_runs
from sarif import sarif_text
from screen import shown
from stopping import Ended, end_by, take_signals
from telling import printable, told
from words import HELP, HELPS, merge_words, record_words, report_words

NUMBER = "1.0.0"
VERSION = f"pmtrim-suite {NUMBER}"


def write_outputs(judged, options):
    """All that is asked for but the report and the pages. What is written to standard output as - stands there alone, and what a person reads
    goes to standard error. Fault: of the first file that can't be written, once the others are."""
    texts = [(options.sarif, lambda: sarif_text(judged, NUMBER)), (options.junit, lambda: junit_text(judged))]
    faults = []
    for path, text in texts:
        try:
            if path == "-":
                print(text(), end="", flush=True)
            elif path:
                write_whole(path, text())
        except Fault as fault:
            faults.append(fault)
    if faults:
        raise faults[0]
    stream = sys.stderr if "-" in (options.sarif, options.junit) else sys.stdout
    text = shown(told(judged), stream) if options.format == "text" else "\n".join(map(printable, told_lines(judged, options.format)))
    print(text, end="\n" if text else "", file=stream, flush=True)


def kind_words(options):
    """The option that asks for other kinds than those that fail by themselves."""
    return [] if options.fail_on == FAILING else ["--fail-on", *options.fail_on]


def report_path(folder, shard):
    name = "report.json" if shard.of == 1 else f"report-{shard.number}-of-{shard.of}.json"
    return os.path.join(folder, name)


def explained_report(explainer, options, report, progress):
    """Adds to the report what is said of the runs of a folder, or of a share of them; answers these runs."""
    runs, faults = find_runs(options.folder)
    report.faults += [[fault.status, str(fault)] for fault in faults]
    check_runs(options.folder, runs)
    share = options.shard.share(runs)
    for run, outcome in explainer.explain_all(share, options.jobs, progress):
        report.add_run(run, outcome)
    if options.shard.of == 1:
        explainer.forget_others()
    return share


def run_report(options, here):
    progress, pmtrim, runs = Progress("pmtrim-suite"), None, []
    report = Report([str(options.folder)], [], {}, [], tuple(options.shard))
    source = [] if options.source == "." else ["--source", options.source]
    words = shlex.join(["pmtrim-suite", "report", options.folder, *source, *kind_words(options)])
    try:
        try:
            check_folder(options.folder)
            pmtrim = Pmtrim(find_pmtrim(here))
            runs = explained_report(Explainer(pmtrim, options.folder, options.source), options, report, progress)
        except Fault as fault:
            report.faults.append([fault.status, str(fault)])
        judged = Judged(report, options, words)
        if options.html and pmtrim:
            write_pages(judged, pmtrim, runs, options.html, options.source, progress)
    finally:
        if pmtrim:
            pmtrim.stop()
        progress.clear()
    if os.path.isdir(options.folder):
        write_whole(report_path(options.folder, options.shard), report.text())
    write_outputs(judged, options)
    return judged.status


def run_merge(options, _here):
    report = joined(options.reports)
    judged = Judged(report, options, shlex.join(["pmtrim-suite", "merge", options.out, *options.reports, *kind_words(options)]))
    write_whole(options.out, report.text())
    write_outputs(judged, options)
    return judged.status


COMMANDS = {"record": (record_words, record), "report": (report_words, run_report), "merge": (merge_words, run_merge)}


def dispatch(words, here):
    """Does what the words ask for, and answers the status."""
    if words in (["--help"], ["--version"]):
        print(HELP if words == ["--help"] else VERSION, flush=True)
        return 0
    command = words[0] if words else ""
    if command not in COMMANDS:
        told_word = f"there is no command {command!r}" if words else "no command is given"
        raise Fault(2, f"{told_word}: record, report or merge; pmtrim-suite --help says more")
    if words[1:] == ["--help"]:
        print(HELPS[command], flush=True)
        return 0
    read, run = COMMANDS[command]
    return run(read(words[1:]), here)


def silence(stream):
    """What waits for a stream that can't be written goes nowhere, so that the end does not fail once more."""
    os.dup2(os.open(os.devnull, os.O_WRONLY), stream.fileno())


def main(words, here):
    """The program. Answers its status."""
    sys.stdout.reconfigure(errors="backslashreplace")
    sys.stderr.reconfigure(errors="backslashreplace")
    take_signals()
    try:
        return dispatch(words, here)
    except Fault as fault:
        print(f"pmtrim-suite: {printable(str(fault))}", file=sys.stderr)
        return fault.status
    except MemoryError:
        print("pmtrim-suite: out of memory", file=sys.stderr)
        return NO_MEMORY
    except OSError as error:
        print(f"pmtrim-suite: {error.filename or 'standard output'}: {error.strerror or error}", file=sys.stderr)
        silence(sys.stdout)
        return FILE_FAULT
    except Ended as ended:
        return end_by(ended.args[0])
