"""Reports: the runs of a folder, or of a share of them, and their causes; as a file, and as one out of several."""
import dataclasses
import json
import re
from typing import Optional

from causes import CUT, EMPTY, add_cause, read_cause
from faults import FILE_FAULT, REFUSED, Fault
from files import read_text
from joining import ASIDE

FORM = "pmtrim-suite report 3"
WHOLE = (1, 1)
ENDED_BADLY = re.compile(r"[1-9]\d*|signal \S+")


@dataclasses.dataclass
class RunRow:
    """A run: what it is, and how many events it has; or with which status and text it could not be explained."""

    name: str
    program: str
    trace: str
    command: Optional[str]
    ended: Optional[str]
    events: int
    claims: int
    status: int
    fault: Optional[str]
    note: Optional[str]  # why the trace is not all of what happened
    parts: int = 0  # how many it was cut into
    aside: Optional[str] = None  # what these do not tell
    seconds: float = 0.0  # how long it took to explain

    @property
    def failed(self):
        """How its program failed; None where it did not, or where that is not known."""
        if self.ended is None or not ENDED_BADLY.fullmatch(self.ended):
            return None
        return f"ended {'by' if self.ended.startswith('signal') else 'with status'} {self.ended}"


@dataclasses.dataclass
class Report:
    """Runs, the causes in them by id, the faults that are of no run, and which share of the runs it is."""

    folders: list
    runs: list
    causes: dict
    faults: list  # of [status, text]
    shard: tuple = WHOLE
    known_runs: int = 0  # how many were not explained again; this is not in the file

    @property
    def events(self):
        return sum(run.events for run in self.runs)

    @property
    def parts(self):
        return sum(run.parts for run in self.runs)

    def notes(self):
        """What is told of runs beside their causes: programs that failed, traces that are not all of what happened, and what is not told."""
        rows = sorted((run.name, run.note, run.events) for run in self.runs if run.note)
        notes = {kind: [f"{name}: {note}" for name, note, events in rows if bool(events) == (kind == CUT)] for kind in (EMPTY, CUT)}
        failed = {"not ended well": [f"{name}: it {how}" for name, how in sorted((run.name, run.failed) for run in self.runs if run.failed)]}
        return {**failed, **notes, ASIDE: [f"{name}: {aside}" for name, aside in sorted((run.name, run.aside) for run in self.runs if run.aside)]}

    @property
    def all_faults(self):
        """Status and text of all that could not be judged."""
        return [*self.faults, *([run.status, run.fault] for run in self.runs if run.fault)]

    def add_run(self, run, outcome):
        """Adds a run with what was explained of it, or with its fault."""
        row = RunRow(run.name, "?", str(run.trace), None, None, 0, 0, 0, None, None, len(run.parts))
        try:
            row.program, row.command, row.ended = run.program, run.command, run.ended
        except Fault as fault:
            outcome = fault
        self.runs.append(row)
        if isinstance(outcome, Fault):
            row.status, row.fault = outcome.status, f"{run.name}: {outcome}"
            return
        row.events, row.claims, row.note, row.aside, row.seconds = outcome.events, outcome.claims, outcome.note, outcome.aside, outcome.seconds
        self.known_runs += outcome.was_known
        for cause in outcome.causes:
            add_cause(self.causes, cause)

    def text(self):
        """The file's text: the same for the same runs, however they were shared out."""
        value = {
            "form": FORM,
            "shard": list(self.shard),
            "folders": sorted(self.folders),
            "runs": [dataclasses.asdict(run) for run in sorted(self.runs, key=lambda run: run.name)],
            "faults": sorted(self.faults),
            "causes": [{"id": cause.id, **cause.sorted} for _, cause in sorted(self.causes.items())],
        }
        return json.dumps(value, indent=1) + "\n"


def read_report(path):
    """The report of a file. Fault: it is of another version, or none."""
    try:
        value = json.loads(read_text(path))
        if not isinstance(value, dict) or value.get("form") != FORM:
            told = value.get("form") if isinstance(value, dict) else None
            raise Fault(REFUSED, f"{path}: this is no report of this version ({FORM!r}) but {told!r}; make it anew")
        causes = {}
        for cause in value["causes"]:
            add_cause(causes, read_cause({name: part for name, part in cause.items() if name != "id"}))
        number, of = value["shard"]
        return Report(value["folders"], [RunRow(**run) for run in value["runs"]], causes, value["faults"], (int(number), int(of)))
    except (ValueError, KeyError, TypeError, AttributeError) as error:
        raise Fault(REFUSED, f"{path}: this is no report ({error}); make it anew") from error


def joined(paths):
    """One report out of those of all shards, or of several folders. Fault: a shard is missing, or a run stands in two of them."""
    whole, seen, shards = Report([], [], {}, []), {}, {}
    for path in paths:
        report = read_report(path)
        check_shard(shards, path, report.shard)
        for run in report.runs:
            if run.name in seen:
                raise Fault(FILE_FAULT, f"{path}: the run {run.name} stands in {seen[run.name]} too")
            seen[run.name] = path
        whole.folders = sorted({*whole.folders, *report.folders})
        whole.runs += report.runs
        whole.faults += [fault for fault in report.faults if fault not in whole.faults]
        for cause in report.causes.values():
            add_cause(whole.causes, cause)
    (of,) = {of for _, of in shards}
    missing = [f"{number}/{of}" for number in range(1, of + 1) if (number, of) not in shards]
    if missing:
        raise Fault(FILE_FAULT, f"the report of shard {', '.join(missing)} is not among those that are named; nothing is written")
    return whole


def check_shard(shards, path, shard):
    """A shard comes once, and all are of one number; what is whole may come more than once."""
    number, of = shard
    if not 1 <= number <= of:
        raise Fault(REFUSED, f"{path}: there is no shard {number}/{of}")
    for (_, others), other in shards.items():
        if others != of:
            raise Fault(FILE_FAULT, f"{path}: this is shard {number}/{of}, and {other} is one of {others}")
    if shard in shards and of > 1:
        raise Fault(FILE_FAULT, f"{path}: this is shard {number}/{of}, and so is {shards[shard]}")
    shards[shard] = path
