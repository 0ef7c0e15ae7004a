"""What a report says to a person: the first screen names what is new, where it is, how often it came, and what to type next."""
import shlex

from causes import KINDS
from labels import Place

MOST_FULL, MOST_LINES, MOST_RUNS = 10, 40, 3
WIDTH = 12  # of the column before what is told


def counted(number, thing):
    return f"{number:,} {thing}" if number == 1 else f"{number:,} {thing}s"


def often(cause, report):
    """How often, in how many runs, and in which."""
    of = f" of {counted(cause.of, 'store')}" if cause.of is not None else f" {'time' if cause.count == 1 else 'times'}"
    names = sorted(cause.runs)
    more = f" and {len(names) - MOST_RUNS} more" if len(names) > MOST_RUNS else ""
    return f"{cause.count:,}{of}, in {len(cause.runs)} of {counted(len(report.runs), 'run')}: {', '.join(names[:MOST_RUNS])}{more}"


def place_of(cause):
    """Where it is, with the line that its example has."""
    return Place(*cause.example.places[0]).shown


def full(cause, report, example):
    """A cause in full: what and where, how often, by which events of a run, and the command that shows one."""
    rows = [f"new: {cause.what} at {Place(*example.places[0]).shown}", f"  {'id':{WIDTH}}{cause.id}", f"  {'how often':{WIDTH}}{often(cause, report)}"]
    for role, text, place in example.told:
        at = f" at {Place(*place).shown}" if place else ""
        number, found, words = text.partition(": ")
        rows.append(f"  {role:{WIDTH - 1}} {f'{number}{at}: {words}' if found and place else text}")
    return [*rows, f"  {'show it':{WIDTH}}{example.show}"]


def line(cause, report):
    """A cause in a line."""
    return f"  {cause.id} {cause.what} at {place_of(cause)}: {cause.count:,} in {counted(len(cause.runs), 'run')}"


def first_line(judged):
    report = judged.report
    programs = len({run.program for run in report.runs})
    known = f"; {counted(report.known_runs, 'run')} unchanged since the last report" if report.known_runs else ""
    parts = f" in {counted(report.parts, 'part')}" if report.parts else ""
    share = f"shard {report.shard[0]}/{report.shard[1]}: " if report.shard[1] > 1 else ""
    return (
        f"{share}{counted(len(report.runs), 'run')} of {counted(programs, 'program')}{parts}, {counted(report.events, 'event')}: "
        f"{counted(len(judged.failing), 'cause')}, {len(judged.new)} new{known}"
    )


def shorten(rows, most, thing):
    return rows[:most] + [f"  and {counted(len(rows) - most, f'more {thing}')}: --junit and --sarif have all"] * (len(rows) > most)


def partly_judged(report):
    """What could not be judged, or not wholly: by a word for it, a text for each."""
    return {"not judged": [text for _, text in report.all_faults], **report.notes()}


def told_counts(report):
    """How many those are, so that the first screen has it, and runs whose order is not judged."""
    told = [f"{len(texts)} {word}" for word, texts in partly_judged(report).items() if texts]
    rows = [f"  {', '.join(told)}: named below"] if told else []
    silent = sum(1 for run in report.runs if not run.fault and run.events and not run.claims)
    if silent:
        rows.append(f"  not known: {counted(silent, 'run')} of {len(report.runs)} without a claim, so which store must be saved before which is not judged there")
    return rows


def told_runs(report):
    """Each of them in its line, none left out."""
    rows = [f"  {word}: {text}" for word, texts in partly_judged(report).items() for text in texts]
    return ["", "not judged, or not wholly:", *rows] if rows else []


def told_known(judged):
    if not judged.known:
        return []
    rows = shorten([f"{line(cause, judged.report)}  # {why}" for cause, why in judged.known], MOST_LINES, "known cause")
    return ["", f"known, by {judged.baseline.path}:", *rows]


def told_others(judged):
    """The kinds that don't fail, in a line."""
    others = [(kind, sum(1 for cause in judged.report.causes.values() if cause.kind == kind)) for kind in KINDS if kind not in judged.fail_on]
    told = [f"{number} {kind}" for kind, number in others if number]
    return ["", f"causes that don't fail a report: {', '.join(told)}; --fail-on KIND.. takes other kinds"] if told else []


def told_unused(judged):
    """Lines of the baseline that are of nothing any more: the whole suite has to have run, to say that."""
    if judged.baseline.path is None or judged.report.shard[1] > 1 or judged.report.all_faults:
        return []
    unused = [f"  {judged.baseline.path}:{entry.number}: {entry.id} {entry.kind} {entry.place}" for entry in judged.baseline.unused(judged.report.causes.values())]
    return ["", "lines of the baseline that are of no cause any more:", *shorten(unused, MOST_LINES, "line")] if unused else []


def told_next(judged):
    """What to type next."""
    if not judged.new:
        return []
    path = judged.baseline.path or "pmtrim.baseline"
    missing = ["", f"note: there is no {path} yet, so nothing is known"] if judged.baseline.is_missing else []
    return [*missing, "", f"next: {judged.new[0].example.show}", f"to take what is new as known: {judged.words} --baseline {shlex.quote(path)} --update-baseline"]


def printable(row):
    """A line without what a terminal would obey."""
    return "".join(letter if letter.isprintable() else "?" for letter in row)


def told(judged):
    """The whole text, in rows."""
    rows = [first_line(judged), *told_counts(judged.report)]
    for cause in judged.new[:MOST_FULL]:
        rows += ["", *full(cause, judged.report, cause.example)]
    if len(judged.new) > MOST_FULL:
        rows += ["", "new too:", *(line(cause, judged.report) for cause in judged.new[MOST_FULL:])]
    rows += told_runs(judged.report) + told_known(judged) + told_others(judged) + told_unused(judged) + told_next(judged)
    if judged.added:
        rows += ["", f"{counted(judged.added, 'line')} added to {judged.baseline.path}: say there why each may stay"]
    return list(map(printable, rows))
