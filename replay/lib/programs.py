"""Programs that are run: where they are, and the signals by which they end."""
import os
import shutil
import signal

from faults import FILE_FAULT, Fault

SIGNALS = {number.value: number.name for number in signal.Signals}


def signal_name(number):
    """The name of a signal, or its number where it has none."""
    return SIGNALS.get(number, str(number))


def find_program(here, name, beside, made_by):
    """The program that the environment names, or that stands beside this one, in its repository, or on the way of commands."""
    word = name.upper().replace("-", "_")
    named = os.environ.get(word)
    for path in [named] if named else [here / name, here.parent / beside, shutil.which(name)]:
        if path and os.access(path, os.X_OK) and not os.path.isdir(path):
            return str(path)
    raise Fault(FILE_FAULT, f"{named or name}: there is no such program: {word} in the environment names it, or {made_by}")


def find_pmtrim(here):
    return find_program(here, "pmtrim", "crates/pmtrim/out/pmtrim", "./pmtrim --prove builds it")
