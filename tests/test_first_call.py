"""What ./pmtrim does before the program is proved and after, on a stand-in that is quick to prove: the script as it is, over one tiny
crate of the same name. It tells one more than the length of what it reads, and ends with status 3 where that is longer than three bytes.
"""
import os
import pathlib
import shutil
import signal
import subprocess
import time

from checks import Checks
from program import TOP
from running import run

NEEDS_NO_PROGRAM = True

YET = "pmtrim: not proved here yet: ./pmtrim --prove proves and builds it (about an hour on 4 processors)\n"
CHANGED = "pmtrim: not proved as it stands now, since its sources changed: ./pmtrim --prove proves what changed, and builds it\n"


class FirstCall(Checks):
    """Each test has a stand-in of its own, for which a build without proofs was made once."""

    @classmethod
    def setUpClass(cls):
        cls.first = cls.shared_folder() / "top"
        source = cls.first / "crates/pmtrim/src/main.rt"
        source.parent.mkdir(parents=True)
        shutil.copy(TOP / "tests/harness/first_call/main.rt.txt", source)
        shutil.copy(TOP / "pmtrim", cls.first)
        for name, text in {"HANDLES": "Handles allowed: none.\n", "crates.txt": "pmtrim:\n", "crates/pmtrim/stdin": "abc", "five": "abcde"}.items():
            (cls.first / name).write_text(text)
        cls.told = run([cls.first / "pmtrim", "tell", "five"], cwd=cls.first)

    def setUp(self):
        self.top = self.new_folder() / "top"
        shutil.copytree(self.first, self.top)

    def call(self, *words):
        return run([self.top / "pmtrim", *words], cwd=self.top)

    def change(self, old, new):
        source = self.top / "crates/pmtrim/src/main.rt"
        source.write_text(source.read_text().replace(old, new))

    def is_clean(self):
        """No program was built, and no process works there a minute after it was ended."""
        until = time.monotonic() + 60
        while (works := any(is_below(link, self.top) for link in pathlib.Path("/proc").glob("[0-9]*/cwd"))) and time.monotonic() < until:
            time.sleep(0.1)
        return not works and not (self.top / "pmtrim.build").exists() and not (self.top / "crates/pmtrim/out/pmtrim").exists()

    def test_first(self):
        self.expect_equal("the answer, its status and one line", self.told, (3, "6\n", YET))
        self.expect("nothing is proved", self.is_clean())

    def test_later(self):
        (self.top / "crates/pmtrim/src/main.rt").touch()
        built = (self.top / "pmtrim.unproved").stat()
        self.expect_equal("the same by the same build", self.call("tell", "five"), self.told)
        self.expect_equal("nothing is built again", (self.top / "pmtrim.unproved").stat()[:2], built[:2])
        self.expect_equal("standard input is read, and the version", self.call("--version"), (0, "1\nnot proved\n", YET))

    def test_changed(self):
        self.change("    count + 1", "    count + 2")
        self.expect_equal("changed sources", self.call("tell", "five"), (3, "7\n", YET))
        told = self.call("--prove")
        self.expect("a refused proof", told.status == 125 and told.err.endswith("pmtrim: not proved, and not built\n"), told)
        self.change("    count + 2", "    count + ")
        told = self.call("tell", "five")
        self.expect("what is no program", told.status == 125 and "error" in told.err and told.err.endswith("pmtrim: not built\n"), told)
        self.expect("neither is built", self.is_clean())

    def test_interrupt(self):
        """As from a terminal, all that stands in the foreground gets it."""
        begun = subprocess.Popen([self.top / "pmtrim", "--prove"], stdin=subprocess.DEVNULL, stderr=subprocess.PIPE, start_new_session=True)
        while begun.poll() is None and not (self.top / "crates/pmtrim/out").exists():
            time.sleep(0.1)
        os.killpg(begun.pid, signal.SIGTERM)
        self.expect_equal("it is told", (begun.communicate()[1], begun.returncode), (b"pmtrim: interrupted\n", 130))
        self.expect("nothing is half built", self.is_clean())

    def test_proved(self):
        told = self.call("--prove")
        proof = f"proved by {run(['rt', 'version']).out}"
        self.expect_equal("it is proved, by which kit", (told.status, told.out), (0, proof))
        self.expect("both programs are compared", told.err.endswith("pmtrim: proved and built; the build without proofs gave the same answer\n"), told)
        self.expect_equal("later calls say nothing more", self.call("tell", "five"), (3, "6\n", ""))
        self.expect_equal("the version", self.call("--version"), (0, f"1\n{proof}", ""))
        self.expect_equal("it is not proved again", self.call("--prove"), (0, proof, ""))
        self.change("    count + 1", "    count + 2")
        self.expect_equal("changed sources", self.call("tell", "five"), (3, "7\n", CHANGED))


def is_below(link, top):
    """Whether a process works at or below a folder."""
    try:
        return pathlib.Path(os.readlink(link)).is_relative_to(top)
    except OSError:
        return False
