"""What the tests in Python stand on: a test case of several checks, and tests from a table."""
import os
import pathlib
import tempfile
import unittest
from concurrent.futures import ThreadPoolExecutor
from functools import partialmethod


class Checks(unittest.TestCase):
    """A test of several checks, which goes on after one that fails. runner.py counts them, and fails a test that makes none."""

    @property
    def program(self):
        """The program under test; the runner finds it."""
        return os.environ["PMTRIM"]

    def expect(self, name, right, told=""):
        """One check; what is told is read where it is not right."""
        with self.subTest(name):
            if not right:
                self.fail(told)

    def expect_equal(self, name, came, wanted):
        self.expect(name, came == wanted, f"{came}, wanted {wanted}")

    def expect_of_all(self, calls):
        """Makes calls side by side, each of a name and a function that gives complaints; a check is that there are none."""
        with ThreadPoolExecutor(os.cpu_count()) as threads:
            made = [(name, threads.submit(call)) for name, call in calls]
            for name, call in made:
                with self.subTest(name):
                    if complaints := call.result():
                        self.fail("\n".join(complaints[:3]))

    def new_folder(self):
        """A folder that goes when the test ends."""
        return folder_until(self.addCleanup)

    @classmethod
    def shared_folder(cls):
        """A folder that goes when the last test of the class ends."""
        return folder_until(cls.addClassCleanup)


def folder_until(add_cleanup):
    made = tempfile.TemporaryDirectory()
    add_cleanup(made.cleanup)
    return pathlib.Path(made.name).resolve()


def add_tests(case, check, rows):
    """Gives the class a test for each row: test_NAME makes the call check(self, row). ValueError: it has one of that name."""
    for name, row in rows.items():
        if hasattr(case, f"test_{name}"):
            raise ValueError(f"{case.__name__} has a test {name}")
        setattr(case, f"test_{name}", partialmethod(check, row))
