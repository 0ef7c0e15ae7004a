"""Makes runs of what the recorders left: a folder each, with the trace, what stands beside it, the command line and the end."""
import os
import pathlib
import re
import shlex
import subprocess
from typing import NamedTuple

from cutting import cut_if_long
from faults import of_file
from files import write_whole
from functions import functions_beside
from programs import signal_name
from runs import TRACE, Run, label_texts

HOW = re.compile(rb"(running|status|signal|became) *(\d*)(?: pools (\d))?")
HOW_BYTES = 32  # of the first line of a file TRACE.process
BESIDE = re.compile(r"\.(?:labels|cut|missing|carried|process|told|ignore|functions|shared|(?:base|origin)\d*)$")
NEXT = re.compile("; next: .*")  # the command to type next names the trace where it stood
PROCESS = re.compile(r"\.(\d+)(?:\.\d+)?$")
ENDS = {"running": "not known: it was killed, or ended by _exit, or became another program", "became": "became another program"}


class Process(NamedTuple):
    """A trace as a recorder left it, with what is known of its process."""

    trace: pathlib.Path
    endings: tuple  # of the files beside it
    number: int
    words: tuple
    end: str
    has_pools: bool

    @property
    def order(self):
        return (self.program, self.number, self.trace.name)

    @property
    def program(self):
        name = os.path.basename(self.words[0]) if self.words else PROCESS.sub("", self.trace.name)
        return re.sub(r"[^A-Za-z0-9._+-]", "_", name).lstrip(".") or "program"

    @property
    def has_events(self):
        with open(self.trace, "rb") as file:
            return file.read(256).count(b"\n") > 1


class Gathered(NamedTuple):
    """The names of the runs, and how many processes have none."""

    names: list
    others: int
    told: list  # of traces that could not be cut into parts


def gather(raw, ends, here, pmtrim=None):
    """Makes the runs in the folder `runs`. `ends` tells how processes ended, of those that were waited for. Where a program pmtrim is named,
    long traces are cut into parts by it."""
    try:
        own = processes_in(raw / "own", ends)
        others = processes_in(raw / "valgrind", ends)
        themselves = {(process.number, process.words) for process in own}
        taken = own + [process for process in others if is_run(process) and (process.number, process.words) not in themselves]
        names, counts, told = [], {}, []
        for process in sorted(taken, key=lambda process: process.order):
            counts[process.program] = counts.get(process.program, 0) + 1
            names.append(f"{process.program}-{counts[process.program]}")
            run = make_run(process, raw / "runs" / names[-1], here)
            told.append(cut_if_long(run, pmtrim) if pmtrim else None)
        numbers = {process.number for process in taken}
        return Gathered(names, len({process.number for process in others} - numbers), [text for text in told if text])
    except OSError as error:
        raise of_file(error.filename or raw, error) from error


def processes_in(folder, ends):
    """The traces of a folder. One whose own end is not known has that of another trace of the same process."""
    beside = {}
    for path in sorted(folder.iterdir()):
        ending = BESIDE.search(path.name)
        beside.setdefault(path.name[: ending.start()] if ending else path.name, []).append(ending[0] if ending else "")
    found = [read_process(folder / name, tuple(endings), ends) for name, endings in beside.items() if "" in endings]
    known = {(process.number, process.words): process.end for process in found if process.end != ENDS["running"]}
    return [process._replace(end=known.get((process.number, process.words), process.end)) for process in found]


def read_process(trace, endings, ends):
    """What the file TRACE.process tells: how it ended, whether it had a pool, and its words."""
    found = PROCESS.search(trace.name)
    number = int(found[1]) if found else next(iter(ends))
    data = trace.with_name(f"{trace.name}.process").read_bytes() if ".process" in endings else b"running"
    how = HOW.match(data[:HOW_BYTES])
    words = tuple(os.fsdecode(word) for word in data[HOW_BYTES:].split(b"\0")[:-1])
    end = told_end(how[1].decode(), int(how[2] or 0)) if how else ENDS["running"]
    if number in ends and end != ENDS["became"]:
        end = ends[number]
    return Process(trace, endings, number, words, end, bool(how and how[3] == b"1"))


def told_end(word, number):
    if word == "status":
        return str(number)
    if word == "signal":
        return f"signal {signal_name(number)}" if number else "signal"
    return ENDS[word]


def is_run(process: Process):
    """Whether a process under Valgrind had a pool: not one that only lasted until it became another program."""
    return process.has_events or (process.has_pools and process.end != ENDS["became"])


def make_run(process: Process, folder, here):
    """The folder of a run, out of what stands beside its trace."""
    folder.mkdir(parents=True)
    for ending in process.endings:
        if ending != ".process":
            os.rename(f"{process.trace}{ending}", folder / f"{TRACE}{ending}")
    told = process.trace.with_name(f"{TRACE}.{process.number}.told")
    if told.exists():
        write_whole(folder / "told", NEXT.sub("", told.read_text(errors="replace")).replace(f"{process.trace}", TRACE))
    run = Run(folder.name, folder / TRACE)
    for path in (run.trace, run.beside(".labels")):
        cut_behind_lines(path)
    write_whole(folder / "command", f"{shlex.join(process.words)}\n")
    write_whole(folder / "status", f"{process.end}\n")
    find_lines(run, here)
    find_functions(run)
    return run


def cut_behind_lines(path):
    """Takes off what a process that was killed left behind the last whole line."""
    if not path.exists() or path.stat().st_size == 0:
        return
    with open(path, "r+b") as file:
        file.seek(-1, os.SEEK_END)
        if file.read(1) != b"\n":
            file.seek(0)
            file.truncate(file.read().rfind(b"\n") + 1)


def find_lines(run, here):
    """Source lines for labels that are addresses, as the libraries in the place of libpmem write them."""
    lines = next((path for path in (here / "pmtrim-lines", here.parent / "recorders/libpmem/pmtrim-lines") if path.exists()), None)
    if lines and any("+0x" in label for label in label_texts(run)):
        subprocess.run([str(lines), str(run.beside(".labels"))], stdin=subprocess.DEVNULL, stderr=subprocess.DEVNULL, check=False)


def find_functions(run):
    """The functions of labels that have none, by the sources as they are now."""
    found = functions_beside(label_texts(run), os.getcwd())
    if found:
        write_whole(run.beside(".functions"), "".join(f"{place} {function}\n" for place, function in sorted(found.items())))
