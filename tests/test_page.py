"""Walks through the pages that `explain --html` writes, by mouse and by keys.

The data of the pages, the crashes and their bytes are compared with the machine of docs/MODEL.md (machine.py, explained.py); what is
reached by mouse, keys and address is compared with what `explain --json` says. A browser without a window does the walking.
"""
import re

import page_hostile
import page_large
import page_looks
import page_machine
import page_places
import page_sources
import page_walk
import page_zoom
from browser import Browser
from checks import Checks, add_tests
from needs import need
from page_files import Pages
from program import find


def setUpModule():
    need("chromium", "chromium")


class Browsing(Checks):
    """Pages in one folder and one browser. A part gives what is asked and what is wrong about the answer, in the order of its walk."""

    @classmethod
    def setUpClass(cls):
        browser = Browser()
        cls.pages = Pages(find(), cls.shared_folder(), browser.__enter__())
        cls.addClassCleanup(browser.__exit__, None, None, None)

    def walk(self, part, *asked):
        for what, wrong in part(self.pages, *asked):
            self.expect(what, not wrong, wrong)


class Walks(Browsing):
    """Pages of small traces and of the examples."""

    def walk_example(self, example):
        self.walk(page_walk.walks, *example)

    def test_small_traces(self):
        self.walk(page_machine.cases)

    def test_sources(self):
        self.walk(page_sources.cases)

    def test_rows(self):
        self.walk(page_places.agree)

    def test_zoom(self):
        self.walk(page_zoom.cases)


class Large(Browsing):
    """Pages that are as large as may be."""

    def test_a_million_events(self):
        self.walk(page_large.cases)

    def walk_hostile(self, name):
        self.walk(page_hostile.cases, name)


def spelled(title):
    """A title as a part of a test's name."""
    return re.sub(r"\W+", "_", title)


add_tests(Walks, Walks.walk_example, {f"walk_{trace.stem}": (trace, words) for trace, words in page_walk.examples()})
add_tests(Walks, Walks.walk, {f"walk_{part.__name__}": part for part in (page_walk.filters, page_walk.strip, page_walk.addresses)})
add_tests(Walks, Walks.walk, {f"looks_{part.__name__}": part for part in page_looks.PARTS})
add_tests(Large, Large.walk_hostile, {f"hostile_{spelled(name)}": name for name in page_hostile.CASES})
