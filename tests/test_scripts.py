"""Every shell script of the project by shellcheck, the page's template in the program, and the width of the documents' lines."""
import re
import sys

from checks import Checks
from needs import need
from program import TOP
from running import run, run_as_shown

NEEDS_NO_PROGRAM = True
CODE = re.compile(r"^ *```.*?^ *```", re.M | re.S)


def tracked(pattern):
    """The files that git knows, as far as they are there."""
    listed = run(["git", "ls-files", "-z", pattern]).out.split("\0")
    return [TOP / name for name in listed if name and (TOP / name).is_file()]


def is_script(path):
    """Whether its name says that it is one, or its first line."""
    with open(path, "rb") as file:
        return path.suffix in (".sh", ".bash") or re.match(rb"#!.*sh$", file.readline().rstrip(b"\n"))


class Scripts(Checks):
    """Files as they stand."""

    def test_shellcheck(self):
        need("shellcheck", "shellcheck")
        for path in filter(is_script, tracked("*")):
            self.expect_equal(path.relative_to(TOP), run_as_shown(["shellcheck", "-x", path]), (0, ""))

    def test_template_stands_in_the_program(self):
        """It stands in the program as it stands in page/."""
        self.expect_equal("page/embed.py --check", run([sys.executable, TOP / "page/embed.py", "--check"]).status, 0)

    def test_documents_keep_to_their_width(self):
        """A line of a document has at most 120 characters, outside of code and tables."""
        for path in tracked("*.md"):
            lines = CODE.sub(lambda code: "\n" * code[0].count("\n"), path.read_text()).split("\n")
            wide = [number for number, line in enumerate(lines, 1) if len(line) > 120 and not line.startswith("|")]
            self.expect_equal(f"{path.relative_to(TOP)}: lines of more than 120 characters", wide, [])
