"""Bases of parts: the pools' bytes with what no crash can lose where the part begins."""
import os
import pathlib
import re
import shutil
import subprocess
import tempfile
from typing import NamedTuple

from commands import Commands, ImageMaker
from crashes import Crash
from faults import FILE_FAULT, REFUSED, WRONG_WORDS, Fault, of_file
from pools import MADE_BY, check_stores, find_pools
from programs import find_pmtrim
from trace import Trace

NAME = re.compile(r"(?P<prefix>.*)\.(?P<number>\d{4,})\.trace", re.S)


class Part(NamedTuple):
    """A part, as the file beside it tells: its number, its place in the whole, and how many events are carried over that."""

    path: str
    prefix: str
    number: int
    place: int
    carried: int
    ignored: list

    def at(self, number):
        """The path of another part of the same trace."""
        return f"{self.prefix}.{number:04}.trace"


def is_part(path):
    return NAME.fullmatch(path) is not None and os.path.exists(f"{path}.part")


def read_part(path):
    """The part of this trace. Fault: it is none."""
    found = NAME.fullmatch(path)
    try:
        lines = pathlib.Path(f"{path}.part").read_text(encoding="ascii").splitlines()
        words = [line.split(" ") for line in lines]
        told = {word[0]: word[1] for word in words[:5]}
        part = Part(path, found["prefix"], int(told["part"]), int(told["place"]), int(told["carried"]), [word[1] for word in words if word[0] == "ignored"])
    except OSError as error:
        raise of_file(f"{path}.part", error) from error
    except (ValueError, KeyError, IndexError, TypeError) as error:
        raise Fault(REFUSED, f"{path}.part: this is not what pmtrim parts writes beside a part") from error
    if part.number != int(found["number"]) or part.number < 1:
        raise Fault(REFUSED, f"{path}.part: it is of part {part.number}")
    return part


class BaseMaker:
    """Makes the bases of a part by those of the one before it, and so on, from the nearest one that has any."""

    def __init__(self, program, processes):
        self.program = program
        self.processes = processes

    def make(self, path, folder):
        """Makes the bases of a part in an empty folder. Answers the path that they are beside, and the part."""
        part = read_part(path)
        number, stem = self.nearest(part)
        made = None
        for number in range(number, part.number):
            target = folder / f"{number + 1}"
            target.mkdir()
            self.step(read_part(part.at(number)), read_part(part.at(number + 1)), stem, target)
            if made is not None:
                shutil.rmtree(made)
            stem, made = str(target / "pool"), target
        return stem, part

    def nearest(self, part):
        """The last part before this one that has bases, with the path that they are beside: the first one may have them beside the whole."""
        for number in range(part.number - 1, 0, -1):
            if os.path.exists(f"{part.at(number)}.base"):
                return number, part.at(number)
        whole = f"{part.prefix}.trace"
        if not os.path.exists(f"{whole}.base"):
            raise Fault(FILE_FAULT, f"neither {part.at(1)}.base nor {whole}.base is there: {MADE_BY}")
        return 1, whole

    def step(self, part, following, stem, target):
        """Writes the bases of the following part: the pools after the crash where it begins that leaves what no crash can lose."""
        place = part.carried + following.place - part.place
        pools, commands = find_pools(stem), Commands(self.program, part.path, self.processes)
        maker = None if len(pools) == 1 else self.maker_of_several(commands, part, pools, target)
        for number, pool in enumerate(pools):
            ending = pool.base[len(f"{stem}.base") :]
            image = target / "image"
            words = ["image", "--at", str(place), "--pool", pool.base, "--origin", f"{pool.origin:#x}", "--out", str(image), part.path]
            commands.run(*(words if maker is None else maker.words(Crash(place, False, ()), number, image)))
            copy_sparse(image, target / f"pool.base{ending}")
            image.unlink()
            (target / f"pool.origin{ending}").write_text(f"{pool.origin:#x}\n")

    def maker_of_several(self, commands, part, pools, folder):
        trace = Trace(part.path)
        check_stores(pools, trace)
        return ImageMaker(commands, trace, pools, folder)


def copy_sparse(source, target):
    """Copies a file; zeros are holes in the copy."""
    done = subprocess.run(["cp", "--sparse=always", "--", str(source), str(target)], stdin=subprocess.DEVNULL, stderr=subprocess.PIPE, text=True, errors="replace")
    if done.returncode != 0:
        raise Fault(FILE_FAULT, f"{target}: {done.stderr.strip() or 'it could not be written'}")


def base_files(stem):
    """The files of bases and origins beside a path, by their endings."""
    return [f"{ending}" for pool in find_pools(stem) for ending in (pool.base[len(stem) :], pool.base[len(stem) :].replace(".base", ".origin"))]


def make_base(path, here, processes):
    """Writes the bases of a part beside it, all or none. Answers what is told of it."""
    if not is_part(path):
        raise Fault(WRONG_WORDS, f"{path}: no part of a trace as pmtrim parts writes it, PREFIX.0002.trace with PREFIX.0002.trace.part beside it")
    if read_part(path).number == 1 and os.path.exists(f"{path}.base"):
        raise Fault(WRONG_WORDS, f"{path}.base is there: a first part begins where the whole does, and has its base")
    try:
        folder = pathlib.Path(tempfile.mkdtemp(prefix=".pmtrim-base.", dir=os.path.dirname(path) or "."))
        try:
            stem, part = BaseMaker(find_pmtrim(here), processes).make(path, folder)
            endings = base_files(stem)
            for ending in endings:
                copy_sparse(f"{stem}{ending}", folder / f"made{ending}")
            for ending in endings:
                os.replace(folder / f"made{ending}", f"{path}{ending}")
        finally:
            shutil.rmtree(folder, ignore_errors=True)
    except OSError as error:
        raise of_file(error.filename or path, error) from error
    ignored = f"; what was stored to {', '.join(part.ignored)} is not in it where a part ended before it was safe" if part.ignored else ""
    return f"{', '.join(f'{path}{ending}' for ending in endings if 'base' in ending)}: what no crash can lose after event {part.place}{ignored}"
