"""Which function a line of a source stands in, for labels that tell a line alone: FILE:LINE."""
import ast
import os
import re

from faults import Fault
from files import read_text
from labels import CALLER, WITH_LINE

MOST_BYTES = 1 << 24
# Comments, texts and characters of C, C++ and Rust; their lines stay.
HIDDEN = re.compile(r"""//[^\n]*|/\*.*?\*/|"(?:\\.|[^"\\\n])*"|'(?:\\.|[^'\\\n])'|^[ \t]*\#(?:[^\n\\]|\\.|\\\n)*""", re.S | re.M)
MARK = re.compile(r"[{};]")
NAMED = re.compile(r"([A-Za-z_~][\w:~]*)\s*\(")
RUST = re.compile(r"\bfn\s+(\w+)")
NO_FUNCTIONS = {"if", "for", "while", "switch", "catch", "return", "sizeof", "match", "loop", "defined", "__attribute__", "alignas", "_Alignas", "decltype"}


def functions_beside(labels, folder):
    """Of the labels that have a line and no function, FILE:LINE and the function, as far as the sources tell: relative names are of the
    folder."""
    wanted = {}
    for label in labels:
        found = WITH_LINE.fullmatch(label.partition(CALLER)[0])
        if found and not found["function"]:
            wanted.setdefault(found["file"], set()).add(int(found["line"]))
    known = {}
    for file, lines in wanted.items():
        spans = spans_of(os.path.join(folder, file))
        for line in sorted(lines):
            names = [name for first, last, name in spans if first <= line <= last]
            if names:
                known[f"{file}:{line}"] = names[-1]
    return known


def spans_of(path):
    """The functions of a source, the outer before the inner: first line, last line, name. None where it can't be read."""
    try:
        if not os.path.isfile(path) or os.path.getsize(path) > MOST_BYTES:
            return []
        text = read_text(path)
    except (OSError, Fault):
        return []
    return python_spans(text) if path.endswith(".py") else brace_spans(text)


def python_spans(text):
    try:
        tree = ast.parse(text)
    except (SyntaxError, ValueError, RecursionError):
        return []
    found = [(node.lineno, node.end_lineno, node.name) for node in ast.walk(tree) if isinstance(node, (ast.FunctionDef, ast.AsyncFunctionDef))]
    return sorted(found, key=lambda span: (span[0], -span[1]))


def brace_spans(text):
    """Functions are blocks with a name and arguments before them."""
    text = HIDDEN.sub(lambda hidden: "".join(letter if letter == "\n" else " " for letter in hidden[0]), text)
    found, open_blocks, head, at, line = [], [], 0, 0, 1
    for mark in MARK.finditer(text):
        line += text.count("\n", at, mark.start())
        at = mark.start()
        if mark[0] == "{":
            before = text[head:at]
            open_blocks.append((line - before.lstrip().count("\n"), name_of(before)))
        elif mark[0] == "}" and open_blocks:
            first, name = open_blocks.pop()
            if name:
                found.append((first, line, name))
        if mark[0] != ";" or before_closes(text, head, at):
            head = mark.end()
    return sorted(found, key=lambda span: (span[0], -span[1]))


def before_closes(text, head, at):
    """Whether a semicolon ends what began: not one between the brackets of a `for`."""
    piece = text[head:at]
    return piece.count("(") <= piece.count(")")


def name_of(before):
    """The name of the function whose block comes after these words; None where they are of no function."""
    found = RUST.search(before)
    if found:
        return found[1]
    found = NAMED.search(re.sub(r"__attribute__\s*\(\(.*?\)\)", "", before, flags=re.S))
    if found is None or found[1] in NO_FUNCTIONS or "=" in before[: found.start()]:
        return None
    return found[1]
