"""What the tests of pmtrim-suite make: runs below a folder, programs that record themselves, and a pmtrim that tells of its calls."""
import json
import os
import re

from program import TOP
from running import run

SUITE = TOP / "suite/pmtrim-suite"

# A record and its mark by one fence, in functions of a source: the claim of event 6 fails, and event 7 is never persisted.
EVENTS = [
    ("store 0 {0} 6162636465666768", "{file}:{1} fill < save {file}:{2}"),
    ("store 0 {mark} 0100000000000000", "{file}:{3} {function} < save {file}:{2}"),
    ("clwb 0 {0}", "{file}:{4} flush < save {file}:{2}"),
    ("clwb 0 {mark}", "{file}:{4} flush < save {file}:{2}"),
    ("sfence 0", "{file}:{5} flush < save {file}:{2}"),
    ("isOrderedBefore 0 {0} 8 {mark} 8", "{file}:{6} save"),
    ("store 0 {0} 6162636465666769", "{file}:{1} touch < save {file}:{2}"),
]
CLEAN = ["store 0 0x0 01", "clwb 0 0x0", "sfence 0", "isPersist 0 0x0 1"]


def suite(*words, known=None, cwd=TOP):
    """Runs pmtrim-suite, on the program under test."""
    return run([SUITE, *words], known, cwd=cwd)


def rows_of(text):
    """The text, each row on one line again."""
    return re.sub(r"\n {5,}", " ", text)


def put_run(folder, events, labels=None, **beside):
    """A run: its trace, its labels, and files beside it by their endings."""
    folder.mkdir(parents=True, exist_ok=True)
    (folder / "trace").write_text("".join(f"{line}\n" for line in ["pmtrace 2 64", *events]))
    if labels is not None:
        (folder / "trace.labels").write_text("".join(f"{number} {label}\n" for number, label in enumerate(labels, 1)))
    for ending, text in beside.items():
        (folder / f"trace.{ending}").write_text(text)
    return folder


def put_save(folder, file="src/save.c", line=10, address=0x1000, function="mark"):
    """The run of EVENTS, with its lines and addresses shifted."""
    lines = [f"{address:#x}", *range(line, line + 6)]
    words = {"mark": f"{address + 64:#x}", "file": file, "function": function}
    events = [event.format(*lines, **words) for event, _ in EVENTS]
    return put_run(folder, events, [label.format(*lines, **words) for _, label in EVENTS])


def report_of(folder):
    return json.loads((folder / "report.json").read_text())


def ids_of(folder, *kinds):
    """The ids of a report's causes of these kinds."""
    return {cause["id"] for cause in report_of(folder)["causes"] if cause["kind"] in (kinds or ("failure", "never_persisted"))}


def files_in(folder):
    """Each file below a folder, with its bytes."""
    return {path.relative_to(folder): path.read_bytes() for path in folder.rglob("*") if path.is_file()}


def put_program(path, text):
    path.write_text(f"#!/bin/sh\n{text}\n")
    path.chmod(0o755)
    return path


def counting_pmtrim(folder):
    """A pmtrim that notes its calls, one a line, and does as the one under test; and the file of these lines."""
    calls = folder / "calls"
    return put_program(folder / "pmtrim", f'echo "$*" >> "{calls}"\nexec "{os.environ["PMTRIM"]}" "$@"'), calls


# Programs

PROGRAM = """\
#define PMTRACE_LABELS
#include "pmtrace.h"
{lines}
static struct {{
    _Alignas(64) char record[64];
    uint64_t mark;
}} pools[2];

#define pool pools[0]
static void {name}_known(void) {{
{known}
}}
#undef pool

#define pool pools[1]
static void {name}_save(void) {{
{body}
}}

int main(void) {{
    pmtrace_open("{name}.trace", pools, sizeof pools, 64);
    {name}_known();
    {name}_save();
    return pmtrace_close() == 0 ? 0 : 1;
}}
"""
FILL, MARK = "    pmtrace_memset(pool.record, 'r', 64);", "    pmtrace_store(pool.mark, 1);"
SAVE_RECORD, SAVE_MARK = "    pmtrace_persist(pool.record, 64);", "    pmtrace_persist(&pool.mark, 8);"
FLUSH_RECORD, FLUSH_MARK = "    pmtrace_clwb(pool.record, 64);", "    pmtrace_clwb(&pool.mark, 8);"
FENCE = "    pmtrace_sfence();"
ORDERED = "    pmtrace_is_ordered_before(pool.record, 64, &pool.mark, 8);"
SAVED = "    pmtrace_is_persist(pool.record, 64);"
RIGHT = [FILL, SAVE_RECORD, MARK, SAVE_MARK, ORDERED, SAVED]
# Each loses something of its own: one cause a program.
KNOWN_BUGS = {
    "one_fence": [FILL, MARK, FLUSH_RECORD, FLUSH_MARK, FENCE, ORDERED],
    "late_flush": [FILL, MARK, SAVE_MARK, SAVE_RECORD, ORDERED],
    "early_claim": [FILL, SAVED, SAVE_RECORD, MARK, SAVE_MARK],
    "no_fence_yet": [FILL, FLUSH_RECORD, SAVED, FENCE, MARK, SAVE_MARK],
    "mark_lost": [FILL, SAVE_RECORD, MARK],
    "mark_unfenced": [FILL, SAVE_RECORD, MARK, FLUSH_MARK],
    "record_lost": [FILL, MARK, SAVE_MARK],
    "record_unfenced": [MARK, SAVE_MARK, FILL, FLUSH_RECORD],
}
NEW_BUG = [FILL, SAVE_RECORD, MARK, FLUSH_RECORD, FENCE]


class Programs:
    """Small programs that record themselves; they share one recorder, which is compiled once."""

    def __init__(self, folder):
        self.folder = folder
        (folder / "recorder.c").write_text('#define PMTRACE_IMPLEMENTATION\n#include "pmtrace.h"\n')
        self.compile("-c", "recorder.c", "-o", "recorder.o")
        self.names = []

    def compile(self, *words):
        told = run(["gcc", "-pthread", "-I", TOP / "recorders/c", *words], cwd=self.folder)
        assert told.status == 0, told.err

    def add(self, name, body, lines=0, known=()):
        """A program that does this in a function of its own, with so many more lines above it; and before it what is known in another one."""
        (self.folder / f"{name}.c").write_text(PROGRAM.format(name=name, body="\n".join(body), lines="\n" * lines, known="\n".join(known)))
        self.compile(f"{name}.c", "recorder.o", "-o", name)
        if name not in self.names:
            self.names.append(name)

    def script(self):
        """Runs all, as `make check` would."""
        return ["sh", "-c", "; ".join(f"./{name}" for name in self.names)]
