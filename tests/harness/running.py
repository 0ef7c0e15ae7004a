"""Running programs: how they ended, and what they wrote."""
import os
import signal
import subprocess
import time
from typing import NamedTuple

from program import TOP


class Told(NamedTuple):
    """How a program ended: its status, and what it wrote to its two streams."""

    status: int
    out: str
    err: str = ""


def run(words, known=None, **options):
    """Runs a program, with names for its environment besides those that there are."""
    pipes = {"stdout": subprocess.PIPE, "stderr": subprocess.PIPE}
    options = {"cwd": TOP, "stdin": subprocess.DEVNULL, "timeout": 1800, **pipes, **options}
    done = subprocess.run([str(word) for word in words], env={**os.environ, **(known or {})}, **options)
    return Told(done.returncode, *((stream or b"").decode(errors="replace") for stream in (done.stdout, done.stderr)))


def run_as_shown(words, known=None, **options):
    """Runs a program: its status, and both streams as a reader sees them, one between the other."""
    return run(words, known, stderr=subprocess.STDOUT, **options)[:2]


def wait_until(holds, seconds=300, pause=0.01):
    """Whether it holds at some time within so many seconds. The machine may have much else to do, so that what is waited for may take long."""
    until = time.monotonic() + seconds
    while not (held := holds()) and time.monotonic() < until:
        time.sleep(pause)
    return held


def unignore():
    """Before a program begins: what runs in the background may have been told to ignore signals."""
    for death in (signal.SIGTERM, signal.SIGINT, signal.SIGHUP):
        signal.signal(death, signal.SIG_DFL)


def ended_by(death, process):
    """The status of a process that gets a signal, or that it does not end."""
    process.send_signal(death)
    try:
        return process.wait(timeout=300)
    except subprocess.TimeoutExpired:
        process.kill()
        return "it does not end"
