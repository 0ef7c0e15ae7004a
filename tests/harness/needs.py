"""What tests need besides the project: packages of Debian, and recorders, which are built in their place by one test at a time."""
import contextlib
import fcntl
import os
import shutil

from program import TOP, NotThere
from running import run


@contextlib.contextmanager
def alone(place=TOP / "tests"):
    """Holds a folder; who else asks for it waits."""
    held = os.open(place, os.O_RDONLY)
    try:
        fcntl.flock(held, fcntl.LOCK_EX)
        yield
    finally:
        os.close(held)


def run_alone(words, known=None):
    """Runs what builds in its place."""
    with alone():
        return run(words, known)


def missing(things):
    """The names of those that are not there."""
    for thing in things:
        name, is_there = thing if isinstance(thing, tuple) else (thing, None)
        if not (is_there() if is_there else shutil.which(name, os.F_OK)):
            yield name


def need(packages, *things):
    """Each thing is there, a command, the whole path of a file or a pair of a name and a function that asks; or the packages of Debian that
    have it are installed, where they may be. NotThere: one is not; this says the line to type."""
    if any(missing(things)) and shutil.which("apt-get"):
        with alone("/var/lib/apt"):
            for words in (["update"], ["-o", "DPkg::Lock::Timeout=600", "install", "-y", "--no-install-recommends", *packages.split()]):
                run(["apt-get", *words])
    for name in missing(things):
        raise NotThere(f"there is no {name}; it needs: apt-get install {packages}")


def need_valgrind():
    """Valgrind, and what pmtrim-record is built against."""
    need("gcc make valgrind", "gcc", "make", "valgrind", "/usr/include/valgrind/pub_tool_basics.h")


def need_recorder(folder="recorders/valgrind"):
    """The recorder of a folder is built. NotThere: it is not."""
    need_valgrind()
    told = run_alone(["make", "-s", "-C", folder])
    if told.status:
        raise NotThere(f"{folder} is not built: {told.err}")
