#!/usr/bin/env python3
"""Runs a module of tests: runner.py NAME [-k CASE] .. runs those of tests/test_NAME.py, or the ones whose name has CASE in it or is of
that pattern. The last line is 'N passed, M failed': of checks, which are the subtests of a test.
"""
import argparse
import os
import sys
import traceback
import unittest

from program import TOP, NotThere, find

# The folders of tests/ whose modules a test imports by name.
ROOMS = ("harness", "oracles", "page", "recorders", "recorders/truth", "replay", "traces")


class Result(unittest.TestResult):
    """Counts checks, and tells of each that fails at once."""

    def __init__(self):
        super().__init__()
        self.passed = self.failed = self.made = 0

    def startTest(self, test):
        super().startTest(test)
        self.made = 0

    def addSubTest(self, test, subtest, err):
        self.made += 1
        if err is None:
            self.passed += 1
        else:
            self.tell(subtest, err)

    def addSuccess(self, test):
        if not self.made:
            self.tell(test, (AssertionError, AssertionError("it made no check"), None))

    def addFailure(self, test, err):
        self.tell(test, err)

    def addError(self, test, err):
        self.tell(test, err)

    def tell(self, test, err):
        self.failed += 1
        is_told = issubclass(err[0], (AssertionError, NotThere))
        print(f"{test.id()}: {err[1] if is_told else ''.join(traceback.format_exception(*err))}", flush=True)


def names_of(suite):
    """The names of all tests of a suite."""
    for test in suite:
        if isinstance(test, unittest.TestSuite):
            yield from names_of(test)
        else:
            yield test.id().partition(".")[2]


def tests_of(name, cases=None):
    """The tests of a module, or those of the names or patterns."""
    loader = unittest.TestLoader()
    if cases:
        loader.testNamePatterns = [case if "*" in case else f"*{case}*" for case in cases]
    return loader.loadTestsFromName(f"test_{name}")


def main():
    parser = argparse.ArgumentParser(prog="test")
    parser.add_argument("name", metavar="NAME")
    parser.add_argument("-k", metavar="CASE", action="append", help="a part of a test's name, or a pattern of all of it")
    asked = parser.parse_args()
    sys.path[:0] = [str(TOP / "tests" / room) for room in ("", *ROOMS)]
    for name in ("CI", "GITHUB_ACTIONS"):  # by which pmtrim knows that people read its faults
        os.environ.pop(name, None)
    suite, result = tests_of(asked.name, asked.k), Result()
    try:
        if not getattr(sys.modules.get(f"test_{asked.name}"), "NEEDS_NO_PROGRAM", False):
            find()
        suite.run(result)
    except NotThere as fault:
        print(fault)
        result.failed += 1
    if not result.passed + result.failed:
        result.failed = 1
        print(f"no test was run; tests/test_{asked.name}.py has", *names_of(tests_of(asked.name)))
    print(f"{result.passed} passed, {result.failed} failed")
    return 1 if result.failed else 0


if __name__ == "__main__":
    sys.exit(main())
