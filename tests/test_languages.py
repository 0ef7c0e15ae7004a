"""The recorders for Python and Rust as packages for pip and cargo, which are built and used without a network."""
import re
import shutil
import sys

from checks import Checks
from needs import need
from program import TOP
from running import run


def shown_in(page, language):
    """The program that a page shows in a language."""
    return re.search(rf"```{language}\n(.*?)```", page.read_text(), re.S)[1]


class Languages(Checks):
    """A package of each language, made from a copy of its folder."""

    def test_python(self):
        folder = self.new_folder()
        told = run([sys.executable, "-m", "venv", folder / "venv"])
        self.expect("there are environments", told.status == 0, told)
        pip = [folder / "venv/bin/python3", "-m", "pip", "--isolated", "--disable-pip-version-check"]
        source = folder / "source"
        shutil.copytree(TOP / "recorders/python", source)
        told = run([*pip, "install", "--no-index", source])
        self.expect("pip installs the folder", told.status == 0, told)
        script = shown_in(source / "README.md", "python")
        (folder / "run").mkdir()
        told = run([folder / "venv/bin/python3", "-c", script], cwd=folder / "run")
        self.expect("the page's program runs", told.status == 0, told)
        self.expect_queue(folder / "run/queue.trace")
        listed = run([*pip, "show", "--files", "pmtrace"]).out
        self.expect("pip shows it", re.search(r"^Version: 1\.0\.0$", listed, re.M) and "pmtrace.py" in listed and "LICENSE" in listed, listed)
        told = run([*pip, "check"])
        self.expect("pip finds nothing wrong", told.status == 0, told)
        self.expect_sdist(folder, source, pip)

    def test_licences(self):
        for language in ("python", "rust"):
            licence = TOP / "recorders" / language / "LICENSE"
            self.expect(f"the licence of {language} is the project's", licence.read_bytes() == (TOP / "LICENSE").read_bytes(), licence)

    def expect_sdist(self, folder, source, pip):
        """The archive of sources gives the same module."""
        code = "import sys; sys.path.insert(0, 'backend'); import one_module; print(one_module.build_sdist(sys.argv[1]))"
        told = run([sys.executable, "-B", "-c", code, folder], cwd=source)
        archive = folder / told.out.strip()
        self.expect("the archive is made", told.status == 0 and archive.is_file(), told)
        told = run([*pip, "install", "--no-index", "--force-reinstall", archive])
        self.expect("pip installs the archive", told.status == 0, told)
        module = run([folder / "venv/bin/python3", "-c", "import pmtrace; print(open(pmtrace.__file__).read(), end='')"], cwd=folder).out
        self.expect("the module is the repository's", module == (TOP / "recorders/python/pmtrace.py").read_text(), module[:200])

    def expect_queue(self, trace):
        """The trace of the example: 18 bytes from 0x40 on and 8 from 0x0 on, both lines, a fence and a claim, which fails."""
        told = run([self.program, "check", trace])
        self.expect("its trace", told.out.splitlines()[:2] == ["events 8 lines 2", "ordered 8 fail"], told)

    def test_rust(self):
        need("cargo", "cargo")
        folder = self.new_folder()
        crate = folder / "crate"
        shutil.copytree(TOP / "recorders/rust", crate, ignore=shutil.ignore_patterns("target"))
        told = run(["cargo", "package", "--offline", "--allow-dirty", "--target-dir", folder / "made"], cwd=crate)
        # nobody has given it a page in the web, which cargo misses
        warnings = [line for line in told.err.splitlines() if line.startswith("warning") and "no documentation, homepage or repository" not in line]
        self.expect("cargo packages it", told.status == 0 and not warnings, told)
        archive = folder / "made/package/pmtrace-1.0.0.crate"
        names = run(["tar", "-tf", archive]).out.split()
        wanted = {"Cargo.toml", "Cargo.lock", "LICENSE", "README.md", "src/lib.rs", "src/trace.rs"}
        self.expect("what is in it", {f"pmtrace-1.0.0/{name}" for name in wanted} <= set(names), names)
        run(["tar", "-xf", archive, "-C", folder])
        program = folder / "queue"
        (program / "src").mkdir(parents=True)
        (program / "Cargo.toml").write_text('[package]\nname = "queue"\nversion = "0.1.0"\nedition = "2021"\n\n[dependencies]\npmtrace = { path = "../pmtrace-1.0.0" }\n')
        (program / "src/main.rs").write_text(shown_in(crate / "README.md", "rust"))
        told = run(["cargo", "run", "--offline", "--quiet"], cwd=program)
        self.expect("the page's program runs", told.status == 0, told)
        self.expect_queue(program / "queue.trace")
