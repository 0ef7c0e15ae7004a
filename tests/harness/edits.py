#!/usr/bin/env python3
"""Tries the edits crates/NAME/must-fail/*.edit: edits.py [OPTION ..] [CRATE ..], all of the project if no crate is named.

An edit turns the meaning of one function at one place. Beside it stands a control, which differs from it in one word and leaves the meaning. The
edit is refused where the prover says of a line of its function that a goal is not proved, or of a line of its proof that it proves no goal; a
proof that only names what is gone, or a goal that is given up, says nothing of the contract. It is refuted where one of these goals is told not
to follow. The control has to be proved, so the edit is refused for that word alone.
A function is proved by its own body and the contracts of those that it calls. So all edits of a crate are tried in one check, in which the
other functions have neither body nor proof, but a hole, which stands for what their contracts promise. Each edit and control is made in a twin,
a function of another name behind the one that it turns. A method of a trait can have none: there they are made in its place, each in a further
check. The crates below are taken as they were built last.
What was told is kept by the sum of all that was read: the crate, its edits, the libraries below, the kit, and what tells what an edit turns.
The last line is 'N passed, M failed'.
"""
import argparse
import hashlib
import json
import os
import pathlib
import re
import shutil
import signal
import subprocess
import sys
import tempfile
import time
from concurrent.futures import ThreadPoolExecutor
from typing import NamedTuple

import sources
from sources import TOP, body_of, items_of

# What a check reads of a crate.
PARTS = ("src", "specs", "proofs")
# What a file of an edit says, a line each.
KEYS = ("file", "old", "new", "same")
# What the prover says of a goal that is not proved, and of a proof that does not prove its goal.
GOAL = re.compile(r"^note: (?:\./)?(src/\S+?):(\d+):\d+: (it is not proved that .*?) \(`", re.M)
PROOF = re.compile(r"^(?:\./)?(proofs/\S+?):(\d+):\d+: error: (?!.*(?:has no field|is not in scope|has no `|was not admitted))(.{,200})", re.M)
# What it says of a goal that can't be proved from what it knows, and of one that it gave up.
REFUTED = "the goal does not follow"
GIVEN_UP = "stopped at its own limit"
# What it says of a function whose own body is proved; what that calls may have holes.
PROVED = re.compile(r"^fn \w+?::(\S+): (?:no holes|depends on a hole in .*)$", re.M)
# Its last line: how many functions it was asked for, and how many holes are left.
ENDED = re.compile(r"^only=\d+ holes=\d+$", re.M)
# A proof with a hole.
HOLE = """use Rattle.{crate}.proofs.{path}.Statement.{{statement}}

pub {name}_spec : {{M : Type 1}} → statement M
{name}_spec = ?
"""


class Function(NamedTuple):
    """A function of a crate: its file, the path by which the prover names it, its lines, the one that opens its body, if it has one, and
    whether it is of no trait."""

    file: str
    path: str
    first: int
    last: int
    body: int | None
    is_own: bool

    def has(self, goal):
        """Whether a goal stands in one of its lines, or of its proof."""
        proof = f"proofs/{self.path.replace('::', '/')}/"
        return goal.file.startswith(proof) or goal.file == self.file and self.first <= goal.line <= self.last


class Edit(NamedTuple):
    """An edit or a control: its name, the function that it turns, where in that function's file a text goes, and the one that comes."""

    name: str
    function: Function
    first: int
    last: int
    new: str
    is_control: bool

    def path(self):
        """The path of the function in which it is made."""
        return f"{self.function.path}_{self.name}" if self.function.is_own else self.function.path

    def made_in(self, crate):
        """The text of its file with it."""
        text = (crate / self.function.file).read_text()
        return text[: self.first] + self.new + text[self.last :]


class Goal(NamedTuple):
    """A goal that is not proved, by its place in the sources or in a proof."""

    file: str
    line: int
    what: str

    def told(self):
        return f"{self.file}:{self.line}: {self.what}"

    def moved(self, lines):
        """The same goal, where what stands in a copy stands so many lines further on in the crate."""
        return self._replace(line=self.line + lines) if self.file.startswith("src/") else self


class Fault(Exception):
    """Why nothing can be said of an edit."""


def module_of(file):
    """The module that a file is, as the prover names it."""
    return "::".join(part for part in pathlib.PurePath(file).with_suffix("").parts[1:] if part != "lib")


def functions_of(crate):
    """The functions of a crate. Attributes are lines of theirs. A method goes by the module of its type, also if it stands in another file."""
    paths = sorted((crate / "src").rglob("*.rt"))
    items = {path: list(items_of(crate.name, path)) for path in paths}
    homes = {(item.name, path) for path in paths for item in items[path] if item.kind in ("struct", "enum")}
    for path in paths:
        file, lines = str(path.relative_to(crate)), path.read_text().splitlines()
        for item in items[path]:
            if item.kind == "fn":
                first = item.first
                while first and lines[first - 1].lstrip().startswith("#["):
                    first -= 1
                block = item.owner + (item.trait if item.trait != item.owner else "")
                beside = [] if item.trait or (item.owner, path) in homes else [home for name, home in homes if name == item.owner]
                home = str(beside[0].relative_to(crate)) if len(beside) == 1 else file
                path_below = "::".join(filter(None, (module_of(home), block, item.name)))
                yield Function(file, path_below, first + 1, item.last + 1, opening_of(lines, item), not item.trait)


def opening_of(lines, item):
    """The line that opens a function's body. Nothing, where it has none, and of a method of `From`, whose proof stands elsewhere."""
    if item.trait and item.trait in ("From", item.owner):
        return None
    body = body_of(lines, item.first, item.last)
    return None if body is None else body + 1


def read_edit(crate, path, functions):
    """An edit and its control, from their file: the lines 'file: F', 'old: TEXT', 'new: TEXT' and 'same: TEXT', in this order."""
    lines = [line.partition(":") for line in path.read_text().splitlines()]
    if tuple(key for key, _, _ in lines) != KEYS:
        raise Fault(f"its lines do not begin with {', '.join(f'{key}: ' for key in KEYS)}")
    file, old, new, same = (value.removeprefix(" ") for _, _, value in lines)
    if not differ_in_one_word(new, same):
        raise Fault("'same: ' differs from 'new: ' in more than one word, or in none")
    text = (crate / file).read_text()
    if not old or text.count(old) != 1:
        raise Fault(f"{file} has '{old}' {text.count(old)} times, and not once")
    first = text.index(old)
    line = text.count("\n", 0, first) + 1
    here = [function for function in functions if function.file == file and function.first <= line <= function.last]
    if len(here) != 1:
        raise Fault(f"'{old}' is in no function")
    edit = Edit(path.stem, here[0], first, first + len(old), new, False)
    return edit, edit._replace(name=f"{path.stem}_same", new=same, is_control=True)


def differ_in_one_word(first, second):
    """Whether two lines have as many words, and differ in one."""
    first, second = (re.findall(r"\w+|\S", line) for line in (first, second))
    return len(first) == len(second) and sum(one != other for one, other in zip(first, second)) == 1


def rounds_of(edits):
    """The edits in rounds, each of one check: at first all that are made in twins. Of the others no two beside each other turn one function,
    and no control stands beside an edit, which it might call."""
    rounds = [[edit for edit in edits if edit.function.is_own]]
    for edit in edits:
        if not edit.function.is_own:
            fits = (beside for beside in rounds[1:] if all(it.function != edit.function and it.is_control == edit.is_control for it in beside))
            beside = next(fits, [])
            beside.append(edit)
            if len(beside) == 1:
                rounds.append(beside)
    return [beside for beside in rounds if beside]


def write_edited(crate, copy, functions, edits):
    """Makes the copy what the crate is with these edits, without the bodies and proofs of all other functions."""
    for part in PARTS:
        shutil.rmtree(copy / part, ignore_errors=True)
        if (crate / part).is_dir():
            shutil.copytree(crate / part, copy / part)
    in_place = {edit.function: edit for edit in edits if not edit.function.is_own}
    for function in functions:
        if function in in_place:
            put_lines(copy, function, lines_of(in_place[function], crate))
        elif function.body:
            take_body(crate.name, copy, function)
    for edit in sorted(edits, key=lambda it: -it.function.last):
        if edit.function.is_own:
            add_twin(crate, copy, edit)


def lines_of(edit, crate):
    """The lines of the function that an edit turns, with it."""
    return edit.made_in(crate).splitlines()[edit.function.first - 1 : edit.function.last]


def put_lines(copy, function, new, behind=False):
    """Puts lines in the place of a function of a copy, or behind it. What stands before it there has as many lines as in the crate."""
    file = copy / function.file
    lines = file.read_text().splitlines()
    lines[function.last if behind else function.first - 1 : function.last] = new
    file.write_text("\n".join(lines) + "\n")


def add_twin(crate, copy, edit):
    """Adds to a copy, behind the function that the edit turns, what it makes of that, under another name and with a proof of its own."""
    name, twin = (path.split("::")[-1] for path in (edit.function.path, edit.path()))
    put_lines(copy, edit.function, re.sub(rf"\bfn {name}\b", f"fn {twin}", "\n".join(lines_of(edit, crate)), count=1).splitlines(), behind=True)
    proof = pathlib.Path("proofs", *edit.function.path.split("::"))
    if (crate / proof).is_dir():
        (copy / proof.with_name(twin)).mkdir()
        for file in (crate / proof).iterdir():
            text = file.read_text().replace(f"{name}_spec", f"{twin}_spec")
            text = text.replace(".".join(proof.parts) + ".", ".".join(proof.with_name(twin).parts) + ".")
            (copy / proof.with_name(twin) / file.name).write_text(text)


def take_body(crate, copy, function):
    """Puts a hole in the place of a function's body, as long as that in lines, and one in the place of its proof."""
    file, proof = copy / function.file, copy / "proofs" / function.path.replace("::", "/")
    lines = file.read_text().splitlines()
    lines[function.body : function.last - 1] = ["unreachable!()"] + [""] * (function.last - 2 - function.body)
    file.write_text("\n".join(lines) + "\n")
    shutil.rmtree(proof, ignore_errors=True)
    proof.mkdir(parents=True)
    (proof / "Proof.antt").write_text(HOLE.format(crate=crate, path=function.path.replace("::", "."), name=proof.name))


class Built(NamedTuple):
    """What a crate is checked over: the kit, and the folders of the project's libraries below it, by name."""

    kit: pathlib.Path
    needs: list[str]
    below: dict[str, pathlib.Path]

    def command(self, crate):
        """The command that checks the crate over these libraries."""
        for name, folder in self.below.items():
            if not (folder / f"{name}.rlib").is_dir():
                raise Fault(f"{name} is not built: ./test builds all crates, and rt check in {crate.name} those below it")
        words = ["--antt-project", self.kit / "rattle/logic/antt-project.json", "--logic-built", self.kit / "logic_built"]
        words += [word for folder in (self.kit / "rlibs", *self.below.values()) for word in ("-L", f"dependency={folder}")]
        for name in ("std", *self.needs):
            words += ["--extern", f"{name}={self.below.get(name, self.kit / 'rlibs') / name}.rlib"]
        return [self.kit / "bin/rattle", "check", "--crate-name", crate.name, "src/lib.rt", *words, "--jobs", "1", "--incremental", "kept", "--allow-holes"]

    def sum(self, crate):
        """The sum of all that a trial of the crate's edits reads. The format of a library has the sum of its files."""
        read = [pathlib.Path(__file__), pathlib.Path(sources.__file__), self.kit / "KIT-ID"]
        read += [folder / f"{name}.rlib/format" for name, folder in self.below.items()]
        read += [path for part in (*PARTS, "must-fail") for path in sorted((crate / part).rglob("*")) if path.is_file()]
        told = hashlib.sha256(repr(self.needs).encode())
        for path in read:
            name = path.relative_to(crate) if path.is_relative_to(crate) else path.name
            told.update(repr((str(name), path.read_bytes())).encode())
        return told.hexdigest()


def needs_of(top):
    """What each crate of the project stands on, by name."""
    lines = (top / "crates.txt").read_text().splitlines()
    return {found[1]: found[2].split() for line in lines if (found := re.match(r"(\w+)[^:]*:(.*)", line))}


def crates_below(needs, name):
    """The crates of the project below this one."""
    below, front = set(), {name}
    while front:
        front = {lower for one in front for lower in needs[one] if lower in needs} - below
        below |= front
    return sorted(below)


def built(crate, place):
    """What the crate is checked over, where the project's libraries are built at that place."""
    kit = pathlib.Path(subprocess.run(["rt", "doc"], capture_output=True, text=True, check=True).stdout.strip()).parent
    needs = needs_of(crate.parents[1])
    return Built(kit, needs[crate.name], {name: place / "crates" / name / "out/rlib" for name in crates_below(needs, crate.name)})


def check(command, copy, paths):
    """Checks these functions of a copy, and returns the goals that are not proved, and the functions that are."""
    words = [*command, *(word for path in sorted(paths) for word in ("--only", path))]
    ran = subprocess.run(words, cwd=copy, stdin=subprocess.DEVNULL, stdout=subprocess.PIPE, stderr=subprocess.STDOUT, text=True, errors="replace")
    if ran.returncode not in (0, 1) or not ENDED.search(ran.stdout):
        raise Fault(f"the check ended with status {ran.returncode} and no verdict:\n{ran.stdout[-2000:]}")
    told = (*GOAL.findall(ran.stdout), *PROOF.findall(ran.stdout))
    return [Goal(file, int(line), what) for file, line, what in told], set(PROVED.findall(ran.stdout))


def judged(edit, goals, is_proved):
    """What is told of an edit or a control by its goals that are not proved, and whether it is as it should be."""
    rank = {goal: (REFUTED not in goal.what) + (GIVEN_UP in goal.what) for goal in goals}
    goal = min(goals, key=rank.get, default=None)
    if edit.is_control:
        is_right = is_proved and not goal
        return f"{edit.name}: " + ("proved" if is_right else f"CONTROL NOT PROVED: {goal.told() if goal else 'no line says that it is'}"), is_right
    word = ("refuted", "refused", "NOT REFUSED, but given up")[rank[goal]] if goal else "NOT REFUSED"
    return f"{edit.name}: {word}" + (f": {goal.told()}" if goal else ""), word in ("refuted", "refused")


def try_edits(crate, command, copy):
    """Tries the edits of a crate on a copy: what is told of each, and what is wrong."""
    functions, paths = list(functions_of(crate)), sorted((crate / "must-fail").iterdir())
    if strays := [path.name for path in paths if path.suffix != ".edit"]:
        raise Fault(f"must-fail/ has files whose names do not end in .edit: {', '.join(strays)}")
    edits, told, wrong = [], [], []
    for path in paths:
        try:
            edits += read_edit(crate, path, functions)
        except Fault as fault:
            wrong.append(f"{path.stem}: BAD EDIT: {fault}")
    for beside in rounds_of(edits):
        write_edited(crate, copy, functions, beside)
        copied = {function.path: function for function in functions_of(copy)}
        goals, proved = check(command, copy, {edit.path() for edit in beside})
        wrong += [f"{goal.told()}, where no edit is" for goal in goals if not any(copied[edit.path()].has(goal) for edit in beside)]
        for edit in beside:
            there = copied[edit.path()]
            own = [goal.moved(edit.function.first - there.first) for goal in goals if there.has(goal)]
            line, is_right = judged(edit, own, edit.path() in proved)
            (told if is_right else wrong).append(line)
    return told, wrong


class Kept:
    """What earlier runs told where nothing was wrong, each by the sum of all that it read."""

    def __init__(self, folder):
        self.folder = folder

    def told(self, name):
        """What was told then; nothing, where nothing is kept."""
        try:
            return json.loads((self.folder / name).read_text())
        except (OSError, ValueError):
            return None

    def keep(self, name, told):
        """Keeps what was told, if there is a place for it."""
        try:
            self.folder.mkdir(parents=True, exist_ok=True)
            with tempfile.NamedTemporaryFile("w", dir=self.folder, delete=False) as new:
                json.dump(told, new)
            os.replace(new.name, self.folder / name)
        except OSError:
            pass
def try_crate(crate, place, kept):
    """Tries the edits of a crate, if they were not refused before. A fault ends it."""
    try:
        over = built(crate, place)
        name = over.sum(crate)
        if (told := kept.told(name)) is not None:
            return told, []
        with tempfile.TemporaryDirectory() as room:
            told, wrong = try_edits(crate, over.command(crate), pathlib.Path(room))
        if not wrong and name == over.sum(crate):
            kept.keep(name, told)
        return told, wrong
    except (Fault, OSError, subprocess.CalledProcessError) as fault:
        return [], [str(fault)]


def try_ahead(crates, asked, kept):
    """Tries the edits of this lane's crates, each once a run that proves the crates has proved it and those below, so that they are kept.
    The run adds the names of what it has proved to a file, and ends this one, which ends its check."""
    signal.signal(signal.SIGTERM, lambda *_: sys.exit(1))
    needs, left = needs_of(asked.top), crates[asked.lane :: asked.lanes]
    while left:
        proved = set(asked.ahead.read_text().split()) if asked.ahead.exists() else set()
        ready = [crate for crate in left if proved.issuperset([crate.name, *crates_below(needs, crate.name)])]
        for crate in ready[:1]:
            left.remove(crate)
            try_crate(crate, asked.built, kept)
        if not ready:
            time.sleep(1)


def arguments():
    cache = pathlib.Path(os.environ.get("XDG_CACHE_HOME") or pathlib.Path.home() / ".cache")
    parser = argparse.ArgumentParser()
    parser.add_argument("--top", type=pathlib.Path, default=TOP, help="the project")
    parser.add_argument("--built", type=pathlib.Path, help="where its libraries are built, if elsewhere")
    parser.add_argument("--lanes", type=int, default=1, help="how many crates are tried side by side")
    parser.add_argument("--ahead", type=pathlib.Path, help="a file with the names of crates that are proved by now: try each once it is there, for a later run")
    parser.add_argument("--lane", type=int, default=0, help="with --ahead: which of so many lanes this one is, from 0 on")
    parser.add_argument("--kept", type=pathlib.Path, default=cache / "pmtrim-edits", help="where refusals are kept")
    parser.add_argument("crates", nargs="*")
    return parser


def main():
    parser = arguments()
    asked = parser.parse_args()
    crates = [it.parent for it in asked.top.glob("crates/*/must-fail") if not asked.crates or it.parent.name in asked.crates]
    if unknown := set(asked.crates) - {crate.name for crate in crates}:
        parser.error(f"no edits: {', '.join(sorted(unknown))}")
    # the largest first, so that none is left at the end
    crates.sort(key=lambda it: -sum(path.stat().st_size for path in it.rglob("*.rt")))
    kept = Kept(asked.kept)
    if asked.ahead:
        return try_ahead(crates, asked, kept)
    passed = failed = 0
    with ThreadPoolExecutor(asked.lanes) as lanes:
        for crate, (told, wrong) in zip(crates, lanes.map(lambda crate: try_crate(crate, asked.built or asked.top, kept), crates)):
            print(*(f"{crate.name}: {line}" for line in (*told, *wrong)), sep="\n", flush=True)
            passed += len(told)
            failed += len(wrong)
    print(f"{passed} passed, {failed} failed")
    return int(failed > 0 or passed == 0)


if __name__ == "__main__":
    sys.exit(main())
