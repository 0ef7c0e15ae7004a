"""--out of the commands that write one answer and know no file of their own: check, trim, fronts, record and stat."""
import subprocess

from checks import Checks

TRACE = "pmtrace 1\nstore 0 0x1000 01\nclwb 0 0x1000\nsfence 0\nsfence 0\nisPersist 0 0x1000 1\n"
LOST = "pmtrace 1\nstore 0 0x1000 01\nisPersist 0 0x1000 1\n"
TRIMMED = "pmtrace 1\nstore 0 0x1000 01\nclwb 0 0x1000\nsfence 0\nisPersist 0 0x1000 1\n"
REPORT = "events 5 lines 1\nfence-without-flush 4\npersist 5 pass\nkept 4 dropped 1\n"
SCRIPT = "store 0x1000 01\nsfence\n"
# Words, standard input, and what is written.
WRITTEN = (
    (["check", "t"], "", REPORT),
    (["check"], TRACE, REPORT),
    (["trim", "t"], "", TRIMMED),
    (["trim", "-"], TRACE, TRIMMED),
    (["fronts", "t", "3"], "", "place 3 lines 1\nline 0x1000 front 1 count 1\n"),
    (["record", "s"], "", "pmtrace 1\nstore 0 0x1000 01\nsfence 0\n"),
)


class Outputs(Checks):
    """The traces t and lost, the script s and the labels l, in a folder of their own."""

    def setUp(self):
        self.folder = self.new_folder()
        for name, text in (("t", TRACE), ("lost", LOST), ("s", SCRIPT), ("l", "1 a.c:1\n")):
            (self.folder / name).write_text(text)

    def told(self, *words, text=""):
        done = subprocess.run([self.program, *words], input=text, capture_output=True, text=True, cwd=self.folder, timeout=60)
        return done.returncode, done.stdout, done.stderr

    def test_written(self):
        out = self.folder / "o"
        for words, text, wanted in WRITTEN:
            for option in (["--out", "o"], ["-o", "o"], ["-oo"]):
                out.unlink(missing_ok=True)
                self.expect_equal(f"{words} {option}", self.told(*words, *option, text=text), (0, "", ""))
                self.expect_equal(f"{words} {option}: the file", out.read_text(), wanted)
            self.expect_equal(f"{words} -o -", self.told(*words, "-o", "-", text=text), (0, wanted, ""))

    def test_stat(self):
        wanted = self.told("stat", "t")
        self.expect("stat tells", wanted[0] == 0 and wanted[1], wanted)
        self.expect_equal("stat -o o", self.told("stat", "-o", "o", "t"), (0, "", ""))
        self.expect_equal("stat -o o: the file", (self.folder / "o").read_text(), wanted[1])

    def test_status(self):
        self.expect_equal("what is lost", self.told("check", "-o", "o", "lost"), (1, "", ""))
        self.expect("is told in the file", "persist 2 fail\n" in (self.folder / "o").read_text())

    def test_faults(self):
        (self.folder / "bad").write_text("pmtrace 1\nsfence 256\n")
        (self.folder / "o").write_text("before")
        for command in ("check", "trim"):
            self.expect_equal(f"{command} of a refused trace", self.told(command, "-o", "o", "bad"), (3, "", "trace line 2: out-of-range\n"))
        self.expect_equal("a place past the end", self.told("fronts", "-o", "o", "t", "9"), (2, "", "place past end 5\n"))
        self.expect_equal("a refused script", self.told("record", "-o", "o", "s", "bad")[:2], (3, ""))
        self.expect_equal("the file stays as it was", (self.folder / "o").read_text(), "before")

    def test_what_is_read_stays(self):
        read = (["check", "t"], ["trim", "t"], ["fronts", "t", "1"], ["record", "s"], ["stat", "--labels", "l", "t"])
        for words, name in zip(read, ("t", "t", "t", "s", "l")):
            before = (self.folder / name).read_text()
            status, out, fault = self.told(*words, "-o", f"./{name}")
            self.expect(f"{words} over {name}", (status, out) == (2, "") and f"'./{name}' is read" in fault, (status, out, fault))
            self.expect_equal(f"{words}: {name} stays", (self.folder / name).read_text(), before)

    def test_devices(self):
        for command in ("check", "trim", "stat"):
            full = (4, "", "cannot write /dev/full: No space left on device\n")
            self.expect_equal(f"{command} to a full device", self.told(command, "-o", "/dev/full", "t"), full)
            none = (4, "", "cannot create none/o: No such file or directory\n")
            self.expect_equal(f"{command} to no folder", self.told(command, "-o", "none/o", "t"), none)
        status, out, fault = self.told("trim", "--stream", "-o", "o", "t")
        self.expect("--stream writes to no file", (status, out) == (2, "") and "'--stream'" in fault, fault)
