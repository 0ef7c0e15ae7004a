"""The runs as JUnit XML: a test case a run, which fails where the run has a new cause."""
import re
import xml.etree.ElementTree as tree

from findings import finding_of
from telling import full, place_of

# What XML 1.0 can't hold, not even by a number.
NO_TEXT = re.compile("[^\t\n\r\u0020-\ud7ff\ue000-\ufffd\U00010000-\U0010ffff]")


def clean(text):
    return NO_TEXT.sub("?", text)


def case_of(parent, run, judged):
    """A run: an error where it could not be judged, a failure for its new causes, an error where its program failed, left out where it is
    empty."""
    case = tree.SubElement(parent, "testcase", classname=clean(run.program), name=clean(run.name), time=f"{run.seconds:.3f}")
    new = [cause for cause in judged.new if run.name in cause.runs]
    ended = f"the program {run.failed}" if run.failed else None
    if run.fault:
        tree.SubElement(case, "error", type="refused" if run.status == 3 else "file", message=clean(run.fault))
    elif new:
        kinds = ", ".join(dict.fromkeys(cause.kind for cause in new))
        titles = [finding_of(cause, cause.examples[run.name]).title for cause in new]
        failure = tree.SubElement(case, "failure", type=kinds, message=clean("; ".join([*titles, *filter(None, [ended])])))
        failure.text = clean("\n\n".join("\n".join(full(cause, judged.report, cause.examples[run.name])) for cause in new))
    elif ended:
        tree.SubElement(case, "error", type="status", message=clean(ended))
    elif not run.events:
        tree.SubElement(case, "skipped", message=clean(run.note or "the trace has no event"))
    known = [cause for cause, _ in judged.known if run.name in cause.runs]
    lines = [f"{run.events} events", *(text for text in (ended, run.note, run.aside) if text), *(f"known: {cause.id} {cause.kind} at {place_of(cause)}" for cause in known)]
    tree.SubElement(case, "system-out").text = clean("\n".join(lines))
    return case


def junit_text(judged):
    """The whole file."""
    suites = tree.Element("testsuites")
    suite = tree.SubElement(suites, "testsuite", name="pmtrim-suite")
    for run in sorted(judged.report.runs, key=lambda run: run.name):
        case_of(suite, run, judged)
    for _, text in judged.report.faults:
        case = tree.SubElement(suite, "testcase", classname="pmtrim-suite", name=clean(text.partition(": ")[0]))
        tree.SubElement(case, "error", type="file", message=clean(text))
    counts = {"tests": "testcase", "failures": "testcase/failure", "errors": "testcase/error", "skipped": "testcase/skipped"}
    for name, path in counts.items():
        suite.set(name, str(len(suite.findall(path))))
    suite.set("time", f"{sum(run.seconds for run in judged.report.runs):.3f}")
    tree.indent(suites)
    return f'<?xml version="1.0" encoding="UTF-8"?>\n{tree.tostring(suites, encoding="unicode")}\n'
