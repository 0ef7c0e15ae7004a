"""Runs the commands that README.md and docs/ show, and compares what they write."""
from checks import Checks, add_tests
from documents import expect_shown
from needs import need_valgrind

PAGES = ("GUIDE", "COMMANDS", "FORMAT", "REPLAY", "SLICE", "STAT", "PARTS", "IMAGE")


def setUpModule():
    need_valgrind()


class Readme(Checks):
    """A test for each document."""


add_tests(Readme, expect_shown, {"readme": "README.md"} | {name.lower(): f"docs/{name}.md" for name in PAGES})
