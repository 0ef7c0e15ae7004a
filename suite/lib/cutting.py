"""Cuts traces that are longer than pmtrim takes into parts, by pmtrim parts."""
import glob
import os
import pathlib
import re
import shutil
import subprocess

from parts import series_of

MOST_EVENTS, MOST_BYTES = 1_000_000, 67_108_864  # of a trace, and of its text and its labels
WANTED_BYTES = 60_000_000  # of a part: the rest is for lines that are longer than most
OF_POOLS = re.compile(r"\.(?:base|origin)\d*")


def cut_if_long(run, pmtrim):
    """Cuts the trace of a run where it is too long, and puts the parts in its place. Answers what went wrong; the trace stays whole then."""
    labels = run.beside(".labels")
    longest = max(os.path.getsize(path) for path in (run.trace, labels) if path.exists())
    lines = count_lines(run.trace)
    if lines <= MOST_EVENTS + 1 and longest <= MOST_BYTES:
        return None
    events = min(MOST_EVENTS, max(WANTED_BYTES * lines // longest, 1))
    named = ["--labels", str(labels)] if labels.exists() else []
    words = [pmtrim, "parts", "--events", str(events), *named, "--out", str(run.trace), str(run.trace)]
    done = subprocess.run(words, stdin=subprocess.DEVNULL, stdout=subprocess.DEVNULL, stderr=subprocess.PIPE, text=True, errors="replace", check=False)
    if done.returncode != 0:
        for path in glob.glob(f"{glob.escape(str(run.trace))}.[0-9]*.trace*"):
            os.unlink(path)
        return f"{run.name}: its trace stays whole, and can't be judged: {' '.join(done.stderr.split())}"
    put_beside(run)
    return None


def count_lines(path):
    with open(path, "rb") as file:
        return sum(piece.count(b"\n") for piece in iter(lambda: file.read(1 << 20), b""))


def put_beside(run):
    """What stands beside the whole: ranges go beside each part, pools beside the first, and what the parts have themselves goes."""
    _, series = series_of(sorted(os.listdir(run.trace.parent)))
    parts = [run.trace.with_name(name) for name in series[run.trace.name]]
    for path in sorted(run.trace.parent.glob(f"{run.trace.name}.*")):
        ending = path.name[len(run.trace.name) :]
        if OF_POOLS.fullmatch(ending):
            os.rename(path, f"{parts[0]}{ending}")
    if run.has(".ignore"):
        for part in parts:
            shutil.copyfile(run.beside(".ignore"), f"{part}.ignore")
    for path in (run.trace, *map(run.beside, (".labels", ".cut", ".ignore", ".missing"))):
        pathlib.Path(path).unlink(missing_ok=True)
