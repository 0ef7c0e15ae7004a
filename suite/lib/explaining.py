"""Explains runs side by side, but for those that are unchanged since they were explained last."""
import concurrent.futures
import contextlib
import dataclasses
import hashlib
import json
import os
import re
import shlex
import tempfile
import time
from typing import Optional

from apart import AT_ONCE, alike_in, most_asked
from causes import FAILURE, NEVER_PERSISTED, read_cause
from events import relabelled
from explained import FENCES, UNFENCED, RunReader, told_lacks
from faults import FILE_FAULT, Fault
from files import add_file, make_folder, read_if_there, read_text, write_whole
from joining import ALIKE, Joined, PartReader, questions, told_aside
from labels import Places
from parts import read_parts
from runs import ENDINGS, EXPLAINED

FORM = "pmtrim-suite explained 4"
FLUSHED = re.compile(r"never-persisted \d+ flushed\n")


def explain_words(run, labels=None):
    """The words that name a run and the files beside it, or other labels."""
    labels = labels or (str(run.beside(".labels")) if run.has(".labels") else None)
    labels = ["--labels", labels] if labels else []
    ignored = ["--ignore-file", str(run.beside(".ignore"))] if run.has(".ignore") else []
    return [*labels, *ignored, str(run.trace)]


def ignored_labels(run):
    """The options that leave out, of stores in UNFENCED, those that the file beside the trace leaves out by their labels."""
    lines = (read_if_there(run.beside(".ignore")) or "").splitlines()
    return [word for line in lines if line.startswith("label ") for word in ("--ignore-label", f"{UNFENCED}{line.removeprefix('label ')}")]


def shown_by(run):
    """The command that shows what these words choose of a run."""
    words = explain_words(run)
    return lambda more: shlex.join(["pmtrim", "explain", *more, *words])


@dataclasses.dataclass
class Explained:
    """What a run has: events, claims, a note where the trace is not all of what happened, what its parts do not tell, and causes."""

    events: int
    claims: int
    note: Optional[str]
    causes: list
    aside: Optional[str]
    seconds: float  # how long that took
    was_known: bool


def join_told(*texts):
    """Those that say something, as one; None where none does."""
    return "; ".join(text for text in texts if text) or None


class Explainer:
    """Explains the runs of a folder. What was said of each is kept there, by the checksum of all that it depends on."""

    def __init__(self, pmtrim, folder, sources):
        self.pmtrim = pmtrim
        self.kept = os.path.join(folder, EXPLAINED)
        self.sources = sources
        self.common = hashlib.sha256(f"{FORM}\n{os.path.abspath(sources)}\n".encode())
        add_file(self.common, pmtrim.program)
        self.used = set()
        make_folder(self.kept)

    def digest(self, run, *more):
        """The checksum of the trace, of what stands beside it, of its names, and of the program; and of more."""
        digest = self.common.copy()
        digest.update(f"{run.name}\n{run.trace}\n{run.program}\n{more}\n".encode("utf-8", "surrogateescape"))
        for path in (run.trace, *(run.beside(ending) for ending in ENDINGS)):
            add_file(digest, path)
        return digest.hexdigest()

    def known_or(self, name, explain_anew):
        """What was said before, by this name of a file, or else what is said now, which is kept there; and whether it was known."""
        self.used.add(name)
        path = os.path.join(self.kept, name)
        with contextlib.suppress(Fault, ValueError, KeyError, TypeError, AttributeError):
            value = json.loads(read_text(path))
            if value["form"] == FORM:
                return value["said"], True
        begun = time.monotonic()
        said = explain_anew()
        said["seconds"] = round(time.monotonic() - begun, 3)
        write_whole(path, json.dumps({"form": FORM, "said": said}))
        return said, False

    def explain(self, run):
        """What a run of one piece has. Fault: it is refused, or can't be read."""
        (piece,) = run.pieces
        name = self.digest(piece, self.digest(run)) if run.parts else self.digest(run)
        said, was_known = self.known_or(f"{name}.json", lambda: self.explain_anew(run, piece))
        return Explained(said["events"], said["claims"], said["note"], [read_cause(cause) for cause in said["causes"]], said["aside"], said["seconds"], was_known)

    def explain_anew(self, run, piece):
        reader = RunReader(piece, self.places(run), run.cut(), shown_by(piece))
        self.ask(reader, [], piece)
        aside = join_told(told_aside({ALIKE: self.ask_more(reader, piece)}), told_lacks(reader.lacks, FENCES))
        causes = reader.finish()
        return {"events": reader.summary["events"], "claims": reader.summary["assertions"], "note": reader.note, "aside": aside, "causes": [dataclasses.asdict(cause) for cause in causes]}

    def ask(self, reader, options, piece, labels=None, file=None):
        """Has a reader take an answer."""
        for line in self.pmtrim.lines(["explain", "--json", "--limit", "all", *options, *explain_words(piece, labels)], file):
            reader.take(line)
        reader.check_answered()

    def ask_relabelled(self, reader, options, piece, numbers, name):
        """The same, where `name` gives events of these numbers other labels, so that what is told together else is told apart."""
        with tempfile.TemporaryFile("w", encoding="utf-8", errors="surrogateescape") as file:
            file.writelines(relabelled(piece.trace, numbers, name))
            file.flush()
            self.ask(reader, options, piece, f"/dev/fd/{file.fileno()}", file)

    def ask_more(self, reader, piece):
        """Asks for failed assertions in full that may be of other causes than the first one of their group, and for what is lost for good by
        its reasons. Answers of how many failed assertions it is not known which stores they lose."""
        alike = alike_in(piece.trace, reader.groups, reader.places)
        most = most_asked(alike, reader.summary["events"])
        wanted = [event for each in alike for event in each.asked(most) if event not in reader.failed]
        if wanted:
            reader.begin((FAILURE,))
        for first in range(0, len(wanted), AT_ONCE):
            self.ask_relabelled(reader, ["--only", FAILURE], piece, set(wanted[first : first + AT_ONCE]), lambda number, _: str(number))
        if reader.has_two_reasons:
            reader.begin(("place",))
            flushed = {int(line.split()[1]) for line in self.pmtrim.lines(["check", str(piece.trace)]) if FLUSHED.fullmatch(line)}
            self.ask_relabelled(reader, [*ignored_labels(piece), "--only", NEVER_PERSISTED], piece, flushed, lambda _, label: f"{UNFENCED}{label}")
        return reader.add_failures(alike, most)

    def places(self, run):
        return Places(run.program, self.sources, run.functions())

    def explain_part(self, run, piece, part):
        """What a part says of what it answers for, and whether that was known."""
        name = f"{self.digest(piece, self.digest(run))}.json"
        return self.known_or(name, lambda: self.explain_part_anew(run, piece, part))

    def explain_part_anew(self, run, piece, part):
        reader = PartReader(piece, part, self.places(run), shown_by(piece))
        for question, options in questions(part):
            reader.ask(question)
            self.ask(reader, options, piece)
        reader.unknown[ALIKE] = self.ask_more(reader, piece)
        return reader.said()

    def begin(self, workers, run):
        """Begins to explain a run, or each of its parts; answers what is waited for."""
        try:
            parts = read_parts(run.parts)
        except Fault as fault:
            return [failed_by(fault)]
        if len(parts) < 2:
            return [workers.submit(self.explain, run)]
        return [workers.submit(self.explain_part, run, piece, part) for piece, part in zip(run.pieces, parts)]

    def joined(self, run, outcomes):
        """What the parts of a run have together, or the first fault."""
        faults = [outcome for outcome in outcomes if isinstance(outcome, Fault)]
        if faults or len(run.parts) < 2:
            return (faults or outcomes)[0]
        run_of_parts = Joined(run, [said for said, _ in outcomes], shown_by(run.pieces[-1])([]))
        seconds, known = sum(said["seconds"] for said, _ in outcomes), all(known for _, known in outcomes)
        return Explained(run_of_parts.events, run_of_parts.claims, run_of_parts.note, run_of_parts.causes(), run_of_parts.aside, seconds, known)

    def explain_all(self, runs, jobs, progress):
        """Of each run in turn what it has, or its fault."""
        with concurrent.futures.ThreadPoolExecutor(jobs) as workers:
            begun = [(run, self.begin(workers, run)) for run in runs]
            try:
                for done, (run, waiting) in enumerate(begun):
                    while left := concurrent.futures.wait(waiting, timeout=progress.pause).not_done:
                        of = f", {len(waiting) - len(left)} of its {len(waiting)} parts are" if run.parts else ""
                        progress.tell(f"{done} of {len(runs)} runs explained, {run.name} is next{of}")
                    yield run, self.joined(run, [outcome_of(future) for future in waiting])
            except BaseException:
                for future in (future for _, waiting in begun for future in waiting):
                    future.cancel()
                self.pmtrim.stop()
                raise

    def forget_others(self):
        """Removes what was said of runs that are no more, or are other ones now."""
        with contextlib.suppress(OSError):
            for name in os.listdir(self.kept):
                if name not in self.used:
                    os.unlink(os.path.join(self.kept, name))


def failed_by(fault):
    """What is waited for where a fault is known already."""
    future = concurrent.futures.Future()
    future.set_exception(fault)
    return future


def outcome_of(future):
    """What came of a run, or of a part: what was explained, or a fault."""
    try:
        return future.result()
    except Fault as fault:
        return fault
    except OSError as error:
        return Fault(FILE_FAULT, f"{error.filename or 'pmtrim'}: {error.strerror or error}")
