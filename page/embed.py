#!/usr/bin/env python3
"""Puts the template's parts into the program: page.html, page.css and the scripts that `parts` names.

Writes crates/pmt_page/src/parts.rt. With --check it writes nothing, and says whether that file is what it would write.
"""
import pathlib
import sys

PAGE = pathlib.Path(__file__).resolve().parent
PARTS = PAGE.parent / "crates/pmt_page/src/parts.rt"

# The blocks in the order in which they stand on the page, with the tags around each.
DATA = '<script type="application/json" id="{}">', "</script>"
BLOCKS = {
    "picture": ("", ""),
    "text": ("<pre>", "</pre>"),
    "about": DATA,
    "columns": DATA,
    "explained": DATA,
    "labels": DATA,
    "sources": DATA,
}

HEAD = """\
//! The parts of the page's template, which `page/embed.py` writes from the files of `page/`.
"""


class Refused(Exception):
    """Why the template can't be put into the program."""


def read(name):
    return (PAGE / name).read_text(encoding="utf-8")


def script():
    """The scripts, one after another."""
    return "".join(read(name) for name in read("parts").split())


def inside(name, text):
    """The text of an element, which nothing in it may end."""
    if f"</{name}" in text.lower() or "<!--" in text:
        raise Refused(f"{name}: the text has '</{name}' or '<!--' in it")
    return text if text.endswith("\n") or not text else text + "\n"


def pieces():
    """The template taken apart at its blocks: one text before each, and one after the last."""
    put = {"style": inside("style", read("page.css")), "script": inside("script", script())}
    found, texts, current = [], [], ""
    for line in read("page.html").splitlines(keepends=True):
        name = line.strip().removeprefix("<!--put:").removesuffix("-->")
        if line.strip() != f"<!--put:{name}-->":
            current += line
        elif name in put:
            current += put.pop(name)
        elif name in BLOCKS:
            start, end = (tag.format(name) for tag in BLOCKS[name])
            texts.append(current + start)
            current = end + "\n"
            found.append(name)
        else:
            raise Refused(f"page.html: there is nothing to put for '{name}'")
    if found != list(BLOCKS):
        raise Refused(f"page.html: the blocks have to be {', '.join(BLOCKS)}, in this order, and are {', '.join(found)}")
    if put:
        raise Refused(f"page.html: nothing is put for {', '.join(put)}")
    return texts + [current]


def literal(text):
    for plain, escaped in (("\\", "\\\\"), ('"', '\\"'), ("\n", "\\n"), ("\r", "\\r"), ("\t", "\\t")):
        text = text.replace(plain, escaped)
    return f'"{text}"'


def constant(name, value):
    """As rt fmt lays it out: on one line, where it has at most 100 letters."""
    line = f"pub const {name}: &str = {value};"
    return line if len(line) <= 100 else line.replace("= ", "=\n    ", 1)


def source():
    """The text of parts.rt."""
    names = [f"BEFORE_{name.upper()}" for name in BLOCKS] + [f"AFTER_{list(BLOCKS)[-1].upper()}"]
    notes = [f"Before the block `{name}`." for name in BLOCKS] + ["After the last block."]
    constants = (
        f"\n/// {note}\n{constant(name, literal(text))}\n"
        for name, note, text in zip(names, notes, pieces(), strict=True)
    )
    return HEAD + "".join(constants)


def main(words):
    if words not in ([], ["--check"]):
        sys.exit("usage: page/embed.py [--check]")
    try:
        text = source()
    except (Refused, OSError) as wrong:
        sys.exit(f"page/embed.py: {wrong}")
    if not words:
        PARTS.write_text(text, encoding="utf-8")
    elif not PARTS.exists() or PARTS.read_text(encoding="utf-8") != text:
        sys.exit("page/embed.py: crates/pmt_page/src/parts.rt is not made of page/ as it is; run page/embed.py")


if __name__ == "__main__":
    main(sys.argv[1:])
