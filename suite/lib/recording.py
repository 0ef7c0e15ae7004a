"""Runs the command of a test suite under the recorders, and gives each process that maps a pool its folder."""
import fcntl
import os
import pathlib
import shutil
import signal
import subprocess
import sys

from commands import find_recorder
from faults import FILE_FAULT, WRONG_WORDS, Fault, of_file
from files import make_folder, read_text, write_whole
from gathering import Gathered, gather
from programs import find_pmtrim, signal_name
from runs import RECORDING
from stopping import Ended
from telling import counted, printable

LIST = "recorded"  # the file in the folder of the runs that lists those that record made
FORM = "pmtrim-suite runs 1"


def record(options, here):
    """Records, and answers the status of the command."""
    folder = pathlib.Path(options.folder).absolute()
    if shutil.which(options.command[0]) is None:
        raise Fault(WRONG_WORDS, f"{options.command[0]}: there is no such program")
    recorder = None if options.own else find_recorder(here)
    pmtrim = find_pmtrim(here) if options.parts else None
    make_folder(folder)
    lock = lock_folder(folder)
    try:
        before = listed(folder)
        status, first = run_command(options, recorder, fresh_folder(folder / RECORDING))
        if recorder and not any((folder / RECORDING / "valgrind").iterdir()):
            shutil.rmtree(folder / RECORDING, ignore_errors=True)
            raise Fault(status if status == WRONG_WORDS else FILE_FAULT, f"{recorder} recorded nothing and ended with status {status}; the runs in {folder} are as they were")
        ends = {first: f"signal {signal_name(-status)}" if status < 0 else str(status)}
        gathered = gather(folder / RECORDING, ends, here, pmtrim)
        put_in_place(folder, before, gathered)
    finally:
        os.close(lock)
    tell(options.folder, gathered)
    return 128 - status if status < 0 else status


def lock_folder(folder):
    """No other record works in the folder until this is closed."""
    try:
        descriptor = os.open(folder, os.O_RDONLY | os.O_DIRECTORY | os.O_CLOEXEC)
        fcntl.flock(descriptor, fcntl.LOCK_EX | fcntl.LOCK_NB)
    except BlockingIOError as error:
        raise Fault(FILE_FAULT, f"{folder}: another record works there") from error
    except OSError as error:
        raise of_file(folder, error) from error
    return descriptor


def listed(folder):
    """The names of the runs that an earlier record made there. Fault: there are other things, and it made none."""
    if not os.path.lexists(folder / LIST):
        others = [name for name in sorted(os.listdir(folder)) if name != RECORDING]
        if others:
            raise Fault(WRONG_WORDS, f"{folder}: there are other files in it, as {others[0]}; record takes a new folder, or one that it made")
        return []
    form, *names = read_text(folder / LIST).splitlines() or [""]
    if form != FORM or any("/" in name or name in ("", ".", "..") for name in names):
        raise Fault(FILE_FAULT, f"{folder / LIST}: this is no list of runs of this version; remove the folder, or name another one")
    return names


def fresh_folder(path):
    """An empty folder, with one for each recorder; what a record that was killed left there goes."""
    try:
        shutil.rmtree(path, ignore_errors=True)
        for name in ("own", "valgrind"):
            (path / name).mkdir(parents=True)
    except OSError as error:
        raise of_file(path, error) from error
    return path


def run_command(options, recorder, raw):
    """Runs the command to its end. Answers its status, negative by a signal, and the number of its process."""
    words = options.command
    if recorder:
        trace = raw / "valgrind" / "trace"
        whole = ["--whole"] if options.parts else []
        words = [recorder, *options.with_options, *whole, "--process", "--trace-children", "yes", "--trace", str(trace), "--", *words]
    environment = {**os.environ, "PMTRACE_FOLDER": str(raw / "own"), **({"PMTRACE_WHOLE": "1"} if options.parts else {})}
    try:
        process = subprocess.Popen(words, env=environment)
    except OSError as error:
        raise of_file(words[0], error) from error
    while True:
        try:
            return process.wait(), process.pid
        except Ended as ended:
            if ended.args[0] != signal.SIGINT:  # which a terminal sends to all
                process.send_signal(ended.args[0])


def put_in_place(folder, before, gathered):
    """The new runs take the place of the earlier ones."""
    try:
        for name in before:
            shutil.rmtree(folder / name, ignore_errors=True)
        for name in gathered.names:
            os.rename(folder / RECORDING / "runs" / name, folder / name)
        write_whole(folder / LIST, "\n".join([FORM, *gathered.names, ""]))
        shutil.rmtree(folder / RECORDING)
    except OSError as error:
        raise of_file(error.filename or folder, error) from error


def tell(folder, gathered: Gathered):
    """The last line, on standard error."""
    for text in gathered.told:
        print(f"pmtrim-suite: {printable(text)}", file=sys.stderr)
    others = f"; {counted(gathered.others, 'process').replace('processs', 'processes')} mapped no pool" if gathered.others else ""
    nothing = "" if gathered.names else ": did any map a file as shared, or call pmtrace_open?"
    following = f"; next: pmtrim-suite report {folder}" if gathered.names else ""
    print(f"pmtrim-suite: {counted(len(gathered.names), 'run')} in {folder}{nothing}{others}{following}", file=sys.stderr)
