"""Runs programs under faults.c, some of whose calls fail then."""
import os
import pathlib
import subprocess
from typing import NamedTuple

from checks import Checks
from needs import need

SOURCE = pathlib.Path(__file__).with_name("faults.c")


class Answer(NamedTuple):
    """What a program did: its status, its answer, its faults."""

    status: int
    out: bytes
    faults: bytes = b""


def short(answer):
    """An answer as a complaint shows it."""
    return f"status {answer.status}, {len(answer.out)} bytes {answer.out[:80]}, faults {answer.faults[:80]}"


def run_whole(program, *words, text=b"", timeout=120):
    """The answer of a program on this text, where no call fails."""
    done = subprocess.run([program, *map(str, words)], input=text, capture_output=True, timeout=timeout)
    return Answer(done.returncode, done.stdout, done.stderr)


class UnderFaults(Checks):
    """Tests with the library, which is built for each class of them."""

    @classmethod
    def setUpClass(cls):
        need("gcc libc6-dev", "gcc")
        cls.library = cls.shared_folder() / "faults.so"
        subprocess.run(["gcc", "-shared", "-fPIC", "-O2", "-o", cls.library, SOURCE], check=True)


def run(library, program, words, text=b"", **faults):
    """The answer of a program on this text, and how many of its calls failed. Of faults.c, fault=.. is FAULT, and so on."""
    told, tell = os.pipe()
    environment = {name.upper(): str(value) for name, value in faults.items()}
    environment |= {"LD_PRELOAD": str(library), "FAULT_TELL": str(tell)}
    command = [program, *words]
    try:
        done = subprocess.run(command, input=text, capture_output=True, env=environment, pass_fds=[tell], timeout=60)
    finally:
        os.close(tell)
        with os.fdopen(told, "rb") as pipe:
            failed = len(pipe.read())
    return Answer(done.returncode, done.stdout, done.stderr), failed
