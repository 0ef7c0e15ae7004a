"""Texts for people, as pmtrim explain writes them: at most 100 columns, and in color where a terminal shows it."""
import os
import re
import textwrap

COLUMNS = 100
TEXT = re.compile(r" *(?:\S.{0,11}?\s{2,})?(?=\S)")  # what stands before a row's text
COMMAND = re.compile(r"\bpmtrim(?:-suite)? [a-z]+ ")  # is copied whole
COLORS = {"new:": 31, "failed": 31, "checker:": 31, "not judged, or not wholly:": 33, "note:": 36, "fix": 32, "next:": 0, "known, by": 0, "new too:": 31}
HEAD = re.compile(rf"( *)({'|'.join(map(re.escape, COLORS))})(?=\s|,|$)")


def broken(row):
    """A row in lines, which go on where its text begins. Commands, and words that are longer, are not broken."""
    if len(row) <= COLUMNS or COMMAND.search(row):
        return [row]
    before, start = TEXT.match(row).end(), len(row) - len(row.lstrip())
    indent = " " * (before if before > start else start + 4)
    return textwrap.wrap(row, COLUMNS, subsequent_indent=indent, break_long_words=False, break_on_hyphens=False)


def colored(line):
    """A line with the words that begin it in color."""
    return HEAD.sub(lambda found: f"{found[1]}\x1b[1{f';{COLORS[found[2]]}' if COLORS[found[2]] else ''}m{found[2]}\x1b[0m", line, count=1) if HEAD.match(line) else line


def shown(rows, stream):
    """The text of these rows, for a stream."""
    lines = [line for row in rows for line in broken(row)]
    has_colors = stream.isatty() and not os.environ.get("NO_COLOR") and os.environ.get("TERM") != "dumb"
    return "\n".join(map(colored, lines) if has_colors else lines)
