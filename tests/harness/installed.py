"""The five programs, and what is made of their help or put in place by ./install."""
import os
import pathlib
import re

from program import TOP
from running import run

# As they stand in the repository, by their names; pmtrim is the program under test.
OTHERS = {
    "pmtrim-record": TOP / "recorders/valgrind/pmtrim-record",
    "pmtrim-replay": TOP / "replay/pmtrim-replay",
    "pmtrim-suite": TOP / "suite/pmtrim-suite",
    "pmtrim-lines": TOP / "recorders/libpmem/pmtrim-lines",
}
def programs():
    """The paths of all, pmtrim first."""
    return [pathlib.Path(os.environ["PMTRIM"]), *OTHERS.values()]


def help_of(path, *words):
    return run([path, *words, "--help"]).out


def commands_of(path):
    """The names of a program's commands, as its help lists them, but `help`."""
    listed = re.search(r"^Commands:\n((?:  .*\n)*)", help_of(path), re.M)
    return [name for name in re.findall(r"^ {2,4}([a-z]+)\b", listed[1], re.M) if name != "help"] if listed else []


def options_of(help_text):
    """The long options that a help lists, each once, in its order."""
    return list(dict.fromkeys(re.findall(r"^ {2,6}(?:-\w, )?(--[a-z][a-z-]*)", help_text, re.M)))


def files_below(folder):
    """The paths of all that is no folder below a folder, from there on."""
    return {str(path.relative_to(folder)) for path in folder.rglob("*") if path.is_symlink() or not path.is_dir()}
