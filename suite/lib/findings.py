"""A cause as a sentence at a line: what build servers and editors show of it."""
import re
from typing import NamedTuple

from causes import CUT, DROPPED, EMPTY, FAILURE, HINT, LATE, NEVER_PERSISTED, OVERWRITTEN, UNWRITTEN
from labels import Place

ERROR, WARNING, NOTE = "error", "warning", "note"
LEVELS = {FAILURE: ERROR, NEVER_PERSISTED: ERROR, UNWRITTEN: WARNING, CUT: WARNING, EMPTY: WARNING}
TITLES = {  # by the roles of what is told of a cause
    FAILURE: "A crash can keep what {keeps} stores without what {loses} stores",
    NEVER_PERSISTED: "A crash at the end can lose what {store} stores",
    LATE: "Two or more fences leave unsafe what {store} stores",
    DROPPED: "What {does nothing} flushes or fences does nothing that a crash could show",
    OVERWRITTEN: "What {store} stores is written over by {overwritten by} before any flush",
    UNWRITTEN: "No store has written what {claim on bytes never stored} claims",
    HINT: "At {event} {why}",
    CUT: "{why}",
    EMPTY: "{why}",
}
KEPT_BY_NONE = "A crash can lose what {loses} stores, and {claim} claims that it is saved"
EVENT = re.compile(r"event \d+")
MOST_LINE = (1 << 31) - 1  # the greatest number of a line that readers of SARIF and of build logs take


class Finding(NamedTuple):
    """What one run shows of a cause: the file and the line, how grave it is, a sentence, and what follows it."""

    file: str
    line: int
    level: str
    title: str
    why: str
    fix: str

    @property
    def text(self):
        return ". ".join(text for text in (self.title, self.why, self.fix) if text)


def has_line(place):
    return place.line is not None and 1 <= place.line <= MOST_LINE


def spot(role, text, place):
    """Where an event is, for a sentence; why it is so needs no place."""
    if role == "why":
        return text
    place = Place(*place) if place else Place("(", None, None)
    if has_line(place):
        return f"{place.file}:{place.line}"
    return place.name if not place.file.startswith("(") else place.function or EVENT.search(text)[0]


def line_of(example):
    """The file and the line of an example; where its place has none, those of the event in the trace: event I stands on line I + 1."""
    place = Place(*example.places[0])
    return (place.file, place.line) if has_line(place) else (example.trace, (example.event or 0) + 1)


def finding_of(cause, example, spot=spot):
    """The finding; `spot` says where an event is."""
    spots = {role: spot(role, text, place) for role, text, place in example.told}
    texts = {role: text for role, text, _ in example.told}
    title = KEPT_BY_NONE if cause.kind == FAILURE and "keeps" not in spots else TITLES[cause.kind]
    why = texts.get("why", "") if "{why}" not in title else ""
    fix = f"Fix: {texts['fix']}" if "fix" in texts else ""
    return Finding(*line_of(example), LEVELS.get(cause.kind, NOTE), title.format_map(spots), f"{why[:1].upper()}{why[1:]}", fix)


# One line a finding, as compilers write them, and as GitHub takes them from a log.


def gcc_line(cause, finding):
    return f"{finding.file}:{finding.line}: {finding.level}: {finding.text.rstrip('.')} [{cause.kind} {cause.id}]"


def escaped(text, more=""):
    return re.sub(f"[%\r\n{more}]", lambda found: f"%{ord(found[0]):02X}", text)


def github_line(cause, finding):
    level = "notice" if finding.level == NOTE else finding.level
    file, title = (escaped(text, ":,") for text in (finding.file, f"{cause.what} {cause.id}"))
    return f"::{level} file={file},line={finding.line},title={title}::{escaped(finding.text)}"


def fault_line(form, text):
    return f"::error::{escaped(text)}" if form == "github" else f"pmtrim-suite: error: {text}"


def told_lines(judged, form):
    """A line for each cause that is new, and for each run that could not be judged."""
    spell = {"gcc": gcc_line, "github": github_line}[form]
    lines = [spell(cause, finding_of(cause, cause.example)) for cause in judged.new]
    return [*lines, *(fault_line(form, text) for _, text in judged.report.all_faults)]
