"""Running pmtrim-replay, for its tests."""
import pathlib
import re
import shutil

from program import TOP
from recording import Recording
from running import run

HERE = TOP / "tests/replay"
REPLAY = TOP / "replay/pmtrim-replay"
GROUP = re.compile(r"^\d+\. (\d+) images?: ((?:.*\n)+?)((?:    (?:loses|keeps|checker:).*\n)(?:    .*\n)*)", re.M)
FOUND = re.compile(r"(\d+) crash(?:es)?, (\d+) different images?: (\d+) failed(?: \((\d+) of them in an earlier run\))?")


def counts_of(told):
    """The crashes, images and failures that the answer counts, and how many were known."""
    found = FOUND.search(told)
    return tuple(int(number or 0) for number in found.groups()) if found else None


def groups_of(told):
    """The groups of images that failed: how many, what their crashes have in common, and what is told of the first one."""
    return [(int(count), " ".join(head.split()), rows) for count, head, rows in GROUP.findall(told)]


def write_trace(path, head, lines, base, origin):
    """A trace, and its pool's first bytes."""
    path.write_text("".join(f"{line}\n" for line in (head, *lines)))
    pathlib.Path(f"{path}.base").write_bytes(base)
    pathlib.Path(f"{path}.origin").write_text(f"{origin:#x}\n")


class Replayed(Recording):
    """Tests with a folder, in which programs run."""

    def setUp(self):
        super().setUp()
        self.temporary = self.empty_folder("tmp")
        self.known = {"TMPDIR": str(self.temporary)}

    def empty_folder(self, name):
        path = self.folder / name
        shutil.rmtree(path, ignore_errors=True)
        path.mkdir()
        return path

    def call(self, words, known=None, **options):
        """How a program ends in the folder."""
        return run(words, {**self.known, **(known or {})}, **{"cwd": self.folder, **options})

    def replay(self, words, **options):
        """The same of pmtrim-replay, which leaves nothing in the folder for temporary files."""
        answer = self.call([REPLAY, *words], **options)
        left = list(self.temporary.iterdir())
        if left:
            self.expect(f"{words}: nothing is left", False, left)
            self.temporary = self.empty_folder("tmp")
        return answer
