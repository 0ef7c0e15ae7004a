"""The functions and types of the source files, as far as their lines tell."""
import pathlib
import re
from typing import NamedTuple

TOP = pathlib.Path(__file__).parents[2]
ITEM = re.compile(r"(pub(?:\(crate\))? )?(?:const )?(fn|struct|enum|trait|type|const) (\w+)")
OWNER = re.compile(r"(?:pub )?(?:impl(?:<.*?>)? (?:([\w:]+)(?:<.*>)? for )?&?(\w+)(<&mut )?|trait (\w+))")


class Item(NamedTuple):
    """A function or a type: its crate, its file, the type that it is a method of, its trait, and its text from one line to another."""

    crate: str
    file: str
    owner: str
    trait: str
    name: str
    kind: str
    public: bool
    first: int
    last: int
    text: str

    def label(self):
        """What a reader calls it."""
        return f"{self.owner}::{self.name}" if self.owner else self.name

    def is_law(self):
        """Whether it is a function without a body."""
        return self.kind == "fn" and self.text.endswith("{}")


def end_of(lines, first, indent):
    """The last line of the item that begins there."""
    is_open = False
    for at in range(first, len(lines)):
        line = lines[at]
        is_open |= line == indent + "{" or (at == first and line.endswith("{"))
        if line.startswith(indent + "}") or (not is_open and line.endswith((";", "{}"))):
            return at
    return len(lines) - 1


def body_of(lines, first, last):
    """The line that opens the body of the function from this line to that one, if one does, and its last line closes it."""
    indent = lines[first][: len(lines[first]) - len(lines[first].lstrip())]
    if lines[last] != indent + "}":
        return None
    opens = (at for at in range(first, last) if lines[at] == indent + "{" or lines[at].endswith("{") and (at == first or lines[at].startswith(indent + ")")))
    return next(opens, None)


def items_of(crate, path):
    """The functions and types of a source file."""
    lines = path.read_text().splitlines()
    owner = trait = ""
    for at, line in enumerate(lines):
        if found := OWNER.match(line):
            trait = found[4] or (found[1] or "").split("::")[-1]
            # of a type that holds a loan, as the prover names it
            owner = found[4] or found[2] + ("RefMut" if found[3] else "")
        elif line == "}":
            owner = trait = ""
        indent = line[: len(line) - len(line.lstrip())]
        found = ITEM.match(line.lstrip())
        if not found or indent not in ("", "    ") or lines[at - 1].strip() == "#[test]":
            continue
        last = end_of(lines, at, indent)
        public = found[1] == "pub " or bool(indent and trait)
        method = indent and found[2] in ("fn", "const")
        yield Item(crate, path.name, owner if method else "", trait if method else "", found[3], found[2], public, at, last, "\n".join(lines[at : last + 1]))
