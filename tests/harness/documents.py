"""Runs what documents show, and compares.

A block fenced as `console` holds commands, each after `$ `, and under each what it writes to both streams. It runs in a folder with
`pmtrim`, `examples`, `crates`, `recorders`, `replay` and `suite`; `make` while no other script builds there. A block fenced with two
words, as `c recorder.c`, is written to a file of that name in that folder first.
"""
import contextlib
import pathlib
import re
import tempfile

from needs import alone
from program import TOP
from running import run_as_shown

SHOWN = ("examples", "crates", "recorders", "replay", "suite")
BLOCK = re.compile(r"^```(\S+)(?: (\S+))?\n(.*?)^```$", re.M | re.S)


def commands_of(block):
    """The commands of a console block, each with what it must write."""
    found = []
    for line in block.splitlines(keepends=True):
        if line.startswith("$ "):
            found.append((line[2:-1], []))
        else:
            found[-1][1].append(line)
    return [(command, "".join(lines)) for command, lines in found]


def outputs_of(path, program):
    """The commands that a document shows, each with what it wrote and what it must write."""
    with tempfile.TemporaryDirectory() as name:
        folder = pathlib.Path(name)
        (folder / "pmtrim").symlink_to(program)
        for shown in SHOWN:
            (folder / shown).symlink_to(TOP / shown)
        blocks = BLOCK.findall(path.read_text())
        for _, file, block in blocks:
            if file:
                (folder / file).write_text(block)
        for kind, file, block in blocks:
            if kind == "console" and not file:
                for command, wanted in commands_of(block):
                    yield command, written_by(command, folder), wanted


def written_by(command, folder):
    with alone() if command.startswith("make ") else contextlib.nullcontext():
        return run_as_shown(["env", "-u", "PMTRACE_QUIET", "bash", "-c", command], cwd=folder)[1]


def expect_shown(test, document):
    """A check for each command of a document: it writes what stands under it."""
    for command, told, wanted in outputs_of(TOP / document, test.program):
        test.expect(command, told == wanted, f"\n--- it wrote\n{told}--- wanted\n{wanted}---")
