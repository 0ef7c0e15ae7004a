"""The program under test: the one that PMTRIM names, or the built one."""
import os
import pathlib
import sys

TOP = pathlib.Path(__file__).resolve().parents[2]
BUILT = TOP / "crates/pmtrim/out/pmtrim"


class NotThere(Exception):
    """Something that tests need is not there."""


def sources_of(crate):
    """The source files of a crate of crates.txt and of those below it."""
    below = {}
    for line in (TOP / "crates.txt").read_text().splitlines():
        name, _, others = line.partition(":")
        below[name.split(" ")[0]] = others.split()
    found, front = set(), [crate]
    while front:
        name = front.pop()
        if name in below and name not in found:
            found.add(name)
            front += below[name]
    return [path for name in sorted(found) for path in TOP.glob(f"crates/{name}/src/**/*.rt")]


def is_stale():
    """Whether a source is younger than the built program."""
    built = BUILT.stat().st_mtime
    return any(path.stat().st_mtime > built for path in sources_of("pmtrim"))


def find():
    """The program's path, which stands in PMTRIM from then on. NotThere: it is not built."""
    named = os.environ.get("PMTRIM")
    if not named and not BUILT.exists():
        raise NotThere("the program is not built: ./pmtrim --prove builds it, or PMTRIM in the environment names one")
    if not named and is_stale():
        print(f"test: {BUILT.relative_to(TOP)} is older than its sources", file=sys.stderr)
    os.environ["PMTRIM"] = str(pathlib.Path(named or BUILT).resolve())
    return os.environ["PMTRIM"]
