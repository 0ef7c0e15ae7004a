"""Pages: of each cause the page that pmtrim explain makes of one run with it, and an index of all."""
import html
import os
import pathlib
import re

from causes import DROPPED, FAILURE, NEVER_PERSISTED, OVERWRITTEN, UNWRITTEN
from explaining import explain_words
from faults import Fault
from files import make_folder, write_whole, written_whole
from runs import Run
from telling import first_line, often, place_of

OPENED = {FAILURE, NEVER_PERSISTED, DROPPED, OVERWRITTEN, UNWRITTEN}  # what a page opens by its address
STYLE = (
    "body{font:15px/1.5 sans-serif;margin:2em auto;max-width:70em;padding:0 1em}code{font-size:13px}"
    "td,th{text-align:left;padding:.2em .8em .2em 0;vertical-align:top}.new{color:#b00020;font-weight:bold}"
)


def page_name(run):
    """A name for a run's page, which stays where a run is added."""
    return f"run-{re.sub('[^A-Za-z0-9._-]', lambda found: f'_{ord(found[0]):x}_', run)}.html"


def paged(example, run):
    """The name of what the page of an example is of: its run, or the part of that which has the event."""
    return f"{example.run}/{os.path.basename(example.trace)}" if run.parts else example.run


def address_of(cause, run):
    """The page of the cause's example, opened at it."""
    example = cause.example
    return page_name(paged(example, run)) + (f"#{cause.kind}={example.event}" if cause.kind in OPENED else "")


def write_page(pmtrim, run, sources, path):
    labelled = ["--source", sources] if run.has(".labels") else []
    with written_whole(path) as file:
        for line in pmtrim.lines(["explain", "--html", *labelled, *explain_words(run)]):
            file.write(line)


def row_of(cause, report, state):
    run = next(run for run in report.runs if run.name == cause.example.run)
    link = f'<a href="{html.escape(address_of(cause, run))}">{html.escape(place_of(cause))}</a>'
    cells = [state, html.escape(cause.what), link, html.escape(often(cause, report)), f"<code>{cause.id}</code>"]
    return f"<tr>{''.join(f'<td>{cell}</td>' for cell in cells)}</tr>"


def index_text(judged):
    report = judged.report
    rows = [row_of(cause, report, '<span class="new">new</span>') for cause in judged.new]
    rows += [row_of(cause, report, f"known: {html.escape(why)}") for cause, why in judged.known]
    faults = [f"<li>{html.escape(text)}</li>" for _, text in report.all_faults]
    faults += [f"<li>{html.escape(f'{kind}: {text}')}</li>" for kind, texts in report.notes().items() for text in texts]
    return "\n".join(
        [
            f'<!DOCTYPE html><html lang="en"><meta charset="utf-8"><title>pmtrim-suite</title><style>{STYLE}</style>',
            f"<h1>Causes</h1><p>{html.escape(first_line(judged))}</p>",
            *([f"<h2>Runs that could not be judged, or not wholly</h2><ul>{''.join(faults)}</ul>"] if faults else []),
            "<table><tr><th></th><th>Kind</th><th>Where</th><th>How often</th><th>Id</th></tr>",
            *rows,
            "</table></html>\n",
        ]
    )


def write_pages(judged, pmtrim, runs, folder, sources, progress):
    """Writes a page for each run, or part of one, that has a cause's example, and then the index. Faults are added to those of the report."""
    make_folder(folder)
    by_name = {run.name: run for run in runs}
    examples = [cause.example for cause in [*judged.new, *(cause for cause, _ in judged.known)]]
    pages = sorted({(paged(example, by_name[example.run]), example.run, example.trace) for example in examples})
    for done, (name, run, trace) in enumerate(pages):
        progress.tell(f"{done} of {len(pages)} pages written")
        try:
            write_page(pmtrim, Run(run, pathlib.Path(trace)), sources, os.path.join(folder, page_name(name)))
        except Fault as fault:
            judged.report.faults.append([fault.status, f"{name}: the page was not written: {fault}"])
    write_whole(os.path.join(folder, "index.html"), index_text(judged))
