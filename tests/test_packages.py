"""The two Debian packages that packaging/deb builds: what dpkg says of them, and what it installs into another root and removes."""
import os
import pathlib
import re
import shutil

from checks import Checks
from installed import files_below
from needs import need, need_valgrind, run_alone
from program import TOP
from running import run

NAMES = ("pmtrim", "pmtrim-record")
# dpkg looks for programs that are not on everybody's way.
KNOWN = {"PATH": f"{os.environ['PATH']}:/usr/sbin:/sbin", "LC_ALL": "C"}


def setUpModule():
    need("dpkg", "dpkg-deb")
    need_valgrind()


class Packages(Checks):
    """Both, built once."""

    @classmethod
    def setUpClass(cls):
        cls.folder = cls.shared_folder()
        cls.told = run_alone(["packaging/deb", cls.folder / "built"])
        cls.archives = [pathlib.Path(line) for line in cls.told.out.splitlines()]

    def dpkg(self, root, *words):
        """dpkg over another root, whose packages and files are its own; that has none of those that are needed."""
        return run(["dpkg", f"--root={root}", "--force-depends", "--force-not-root", *words], KNOWN)

    def new_root(self):
        root = self.new_folder()
        for folder in ("info", "updates", "triggers"):
            (root / "var/lib/dpkg" / folder).mkdir(parents=True)
        (root / "var/lib/dpkg/status").touch()
        return root

    def test_built(self):
        number = run([self.program, "--version"]).out.split()[1]
        machine = run(["dpkg", "--print-architecture"]).out.strip()
        self.expect("they are built", self.told.status == 0, self.told)
        self.expect_equal("their names", [path.name for path in self.archives], [f"{name}_{number}-1_{machine}.deb" for name in NAMES])

    def test_control(self):
        """What other packages they need: the versions of the C library and of valgrind that are here are among these."""
        of_pmtrim, of_record = (run(["dpkg-deb", "--field", path, "Depends"]).out for path in self.archives)
        self.expect("pmtrim needs", re.fullmatch(r"libc6 \(>= 2\.[0-9.]+\), python3 \(>= 3\.10\)\n", of_pmtrim), of_pmtrim)
        self.expect_equal("pmtrim-record needs", of_record, "valgrind (>= 1:3.19), valgrind (<< 1:3.25~)\n")
        for needed in re.findall(r"(\S+) \((\S+) (\S+)\)", of_pmtrim + of_record):
            name, sign, least = needed
            here = run(["dpkg-query", "-W", "-f", "${Version}", name]).out
            right = not here or run(["dpkg", "--compare-versions", here, sign, least]).status == 0
            self.expect(f"{name} {sign} {least} is so here", right, here)

    def test_files(self):
        for name, path in zip(NAMES, self.archives):
            listed = run(["dpkg-deb", "--contents", path]).out.splitlines()
            self.expect(f"{name}: all is root's", all(line.split()[1] == "root/root" for line in listed), listed)
            self.expect(f"{name}: all is below /usr", all(line.split()[5] == "./" or line.split()[5].startswith("./usr/") for line in listed), listed)
            self.expect(f"{name}: nobody else may write", not any(line[5] == "w" or line[8] == "w" for line in listed if line[0] != "l"), listed)
        both = [set(run(["dpkg-deb", "--contents", path]).out.split()) for path in self.archives]
        shared = {word for word in both[0] & both[1] if word.startswith("./usr/") and not word.endswith("/")}
        self.expect_equal("no file is in both", shared, set())

    def test_installed_and_removed(self):
        root = self.new_root()
        told = self.dpkg(root, "--install", *self.archives)
        self.expect("they are installed", told.status == 0, told)
        listed = run(["dpkg-query", f"--admindir={root}/var/lib/dpkg", "-W", "-f", "${Package} ${Status}\n"], KNOWN).out
        self.expect_equal("dpkg has them", listed, "".join(f"{name} install ok installed\n" for name in NAMES))
        self.expect_runs(root)
        told = self.dpkg(root, "--verify", *NAMES)
        self.expect_equal("all files are as they were packaged", (told.status, told.out), (0, ""))
        told = self.dpkg(root, "--purge", *NAMES)
        self.expect("they are removed", told.status == 0, told)
        left = [path for path in files_below(root) if not path.startswith("var/lib/dpkg/")]
        self.expect_equal("no file is left", left, [])
        self.expect("no folder is left", not (root / "usr").exists(), list(root.rglob("*"))[:5])

    def expect_runs(self, root):
        """The programs run from there."""
        folder, bare = self.new_folder(), ["env", "-i", "PATH=/usr/bin:/bin"]
        for path in TOP.glob("examples/undo_log.trace*"):
            shutil.copy(path, folder)
        told = run([*bare, root / "usr/bin/pmtrim", "check", "undo_log.trace"], cwd=folder)
        self.expect("pmtrim runs", told.status == 0 and "kept" in told.out, told)
        told = run([*bare, root / "usr/bin/pmtrim-replay", "undo_log.trace", "--", "test", "-s", "{}"], cwd=folder)
        self.expect("pmtrim-replay runs", told.status == 0, told)
        told = run([*bare, root / "usr/bin/pmtrim-suite", "report", folder], cwd=folder)
        self.expect("pmtrim-suite runs", told.status == 0 and told.out.startswith("1 run of 1 program"), told)
        told = run([*bare, root / "usr/bin/pmtrim-record", "--trace", "true.trace", "true"], cwd=folder)
        self.expect("pmtrim-record runs", told.status == 0, told)
        for name in NAMES:
            place = root / "usr/share/doc" / name
            self.expect(f"documents of {name}", {"copyright", "changelog.gz"} <= {path.name for path in place.iterdir()}, place)

    def test_again(self):
        """One commit and one program give the same packages."""
        told = run_alone(["packaging/deb", self.folder / "again"])
        for path in self.archives:
            again = self.folder / "again" / path.name
            self.expect(f"{path.name} again", told.status == 0 and again.read_bytes() == path.read_bytes(), told)
