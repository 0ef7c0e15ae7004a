"""What ./install puts in place and removes, and programs that are built with it, as docs/INSTALL.md says."""
import hashlib
import os
import pathlib
import re
import shutil
import unittest.mock

from checks import Checks
from documents import expect_shown
from installed import files_below, help_of, options_of, programs
from needs import need, need_valgrind, run_alone
from program import TOP
from running import run

LINK = re.compile(r"\]\(([^)#:]+)(?:#[^)]*)?\)")


def setUpModule():
    need_valgrind()


def install(*words):
    return run_alone(["./install", *words])


class Installed(Checks):
    """One prefix, in which all is installed."""

    @classmethod
    def setUpClass(cls):
        cls.prefix = cls.shared_folder() / "prefix"
        cls.told = install(cls.prefix)

    def test_installed(self):
        self.expect("it is installed", self.told.status == 0 and self.told.out.count("\n") == 2, self.told)
        for path in programs():
            name = path.name
            self.expect(f"{name} says what it does", help_of(self.prefix / "bin" / name) == help_of(path), name)
            pages = [f"man/man1/{name}.1", f"bash-completion/completions/{name}", f"zsh/site-functions/_{name}", f"fish/vendor_completions.d/{name}.fish"]
            for page in pages:
                self.expect(f"{page} is there", (self.prefix / "share" / page).is_file(), page)

    def test_runs_alone(self):
        """Nothing of this repository and of the kit is needed."""
        folder, bare = self.new_folder(), ["env", "-i", "PATH=/usr/bin:/bin"]
        for path in TOP.glob("examples/undo_log.trace*"):
            shutil.copy(path, folder)
        told = run([*bare, self.prefix / "bin/pmtrim", "check", "undo_log.trace"], cwd=folder)
        self.expect("pmtrim", told.status == 0 and "kept" in told.out, told)
        told = run([*bare, self.prefix / "bin/pmtrim-replay", "undo_log.trace", "--", "test", "-s", "{}"], cwd=folder)
        self.expect("pmtrim-replay", told.status == 0, told)
        told = run([*bare, self.prefix / "bin/pmtrim-suite", "report", folder], cwd=folder)
        self.expect("pmtrim-suite", told.status == 0 and told.out.startswith("1 run of 1 program"), told)
        told = run([*bare, self.prefix / "bin/pmtrim-record", "--trace", "true.trace", "true"], cwd=folder)
        self.expect("pmtrim-record", told.status == 0 and (folder / "true.trace").exists(), told)

    def test_page(self):
        """The commands of docs/INSTALL.md, where builds find the prefix."""
        need("cmake pkg-config", "cmake", "pkg-config")
        known = {
            "PATH": f"{self.prefix}/bin:{os.environ['PATH']}",
            "PKG_CONFIG_PATH": f"{self.prefix}/share/pkgconfig",
            "CMAKE_PREFIX_PATH": str(self.prefix),
        }
        with unittest.mock.patch.dict(os.environ, known):
            expect_shown(self, "docs/INSTALL.md")

    def test_words_of_the_page(self):
        """The page and the help of ./install have the same options."""
        page, listed = (TOP / "docs/INSTALL.md").read_text(), options_of(run(["./install", "--help"]).out)
        self.expect("options are listed", "--destdir" in listed, listed)
        for option in listed:
            self.expect(f"the page has {option}", option == "--help" or option in page, option)

    def test_versions(self):
        need("pkg-config", "pkg-config")
        number = run([self.program, "--version"]).out.split()[1]
        known = {"PKG_CONFIG_PATH": f"{self.prefix}/share/pkgconfig"}
        self.expect_equal("pkg-config has the version", run(["pkg-config", "--modversion", "pmtrace"], known).out.strip(), number)
        for wanted, status in ((number, 0), ("1.0", 0), ("2.0", 1), ("0.9", 1), ("99", 1)):
            folder = self.new_folder()
            (folder / "CMakeLists.txt").write_text(f"cmake_minimum_required(VERSION 3.16)\nproject(p C CXX)\nfind_package(pmtrace {wanted} REQUIRED)\n")
            told = run(["cmake", "-S", folder, "-B", folder / "out", f"-DCMAKE_PREFIX_PATH={self.prefix}"])
            self.expect(f"CMake and version {wanted}", told.status == status, told)

    def test_proof(self):
        """It is told how the program was proved if ./pmtrim knows that of this very program."""
        stamp, program = TOP / "pmtrim.build", pathlib.Path(self.program)
        told = (self.prefix / "share/doc/pmtrim/PROVED").read_text()
        *_, proof, kept = stamp.read_text().splitlines() if stamp.exists() else ("", "")
        if kept.split()[:1] != [hashlib.sha256(program.read_bytes()).hexdigest()]:
            proof = "not known to be proved"
        version = run([program, "--version"]).out.strip()
        self.expect_equal("how it was proved", told, f"{version}: {proof}\n")
        self.expect("it is said at once", f"installed {version} below {self.prefix}, {proof}\n" in self.told.out, self.told)

    def test_cpp(self):
        need("pkg-config", "pkg-config")
        folder = self.new_folder()
        words = run(["pkg-config", "--cflags", "--libs", "pmtrace"], {"PKG_CONFIG_PATH": f"{self.prefix}/share/pkgconfig"}).out.split()
        told = run(["g++", "-std=c++17", TOP / "tests/recorders/programs/destructors.cpp", "-o", "program", *words], cwd=folder)
        self.expect("a program in C++ is built", told == (0, "", ""), told)
        self.expect("it is recorded", run([folder / "program", "trace"], cwd=folder).status == 0 and (folder / "trace").exists(), told)

    def test_libpmem(self):
        """A program finds libpmem of the prefix by pkg-config, and its labels are source lines in the end."""
        need("pkg-config", "pkg-config")
        folder, place = self.new_folder(), self.prefix / "lib/pmtrim/libpmem"
        block = re.search(r"^```c hello.c\n(.*?)^```", (TOP / "recorders/libpmem/README.md").read_text(), re.M | re.S)
        (folder / "hello.c").write_text(block[1])
        words = run(["pkg-config", "--cflags", "--libs", "libpmem"], {"PKG_CONFIG_PATH": f"{place}/lib/pkgconfig"}).out.split()
        told = run(["gcc", "-g", "hello.c", "-o", "hello", *words], cwd=folder)
        self.expect("it is built", told == (0, "", ""), told)
        self.expect("it runs", run([folder / "hello"], cwd=folder).status == 0, "")
        told = run([self.prefix / "bin/pmtrim-lines", "hello.pool.trace.labels"], cwd=folder)
        self.expect_equal("labels", (told.status, (folder / "hello.pool.trace.labels").read_text().splitlines()[-1]), (0, "7 hello.c:13 main"))
        for name in ("libpmem.so.1", "libpmem2.so.1"):
            self.expect(f"{name} is there", (place / "shared" / name).is_file(), name)

    def test_documents(self):
        """What their links lead to is installed too, and what the man pages say of them."""
        doc = self.prefix / "share/doc"
        for page in sorted(doc.rglob("*.md")):
            for link in LINK.findall(page.read_text()):
                self.expect(f"{page.relative_to(doc)}: {link}", (page.parent / link).exists(), "it is not installed")
        for page in sorted((self.prefix / "share/man/man1").iterdir()):
            named = re.findall(r"\bshare/doc/\S+", page.read_text().replace("\\-", "-"))
            self.expect(f"{page.name} names documents", named and all((self.prefix / name).is_file() for name in named), named)
        mit, gpl = "Permission is hereby granted, free of charge", "GNU GENERAL PUBLIC LICENSE"
        for place, text in (("doc/pmtrim", mit), ("pmtrim/python", mit), ("pmtrim/rust", mit), ("doc/pmtrim-record", gpl)):
            self.expect(f"the licence in {place}", text in (self.prefix / "share" / place / "LICENSE").read_text(), place)


class Removing(Checks):
    """What is there after ./install uninstall, and after another version."""

    def test_uninstall(self):
        prefix = self.new_folder() / "prefix"
        (prefix / "share/man").mkdir(parents=True)
        (prefix / "bin").mkdir()
        (prefix / "bin/mine").write_text("of somebody")
        install(prefix)
        self.expect("it is installed", (prefix / "bin/pmtrim").is_file(), "")
        told = install("uninstall", prefix)
        self.expect("it is removed", told == (0, f"removed pmtrim from {prefix}\nremoved pmtrim-record from {prefix}\n", ""), told)
        left = {str(path.relative_to(prefix)) for path in prefix.rglob("*")}
        self.expect_equal("what is left is what was there", left, {"share", "share/man", "bin", "bin/mine"})
        told = install("uninstall", prefix)
        self.expect("what is not there is not removed", told.status == 1 and "pmtrim is not installed" in told.err, told)

    def test_failure(self):
        """What was installed before something failed is removed by the same word."""
        prefix = self.new_folder()
        (prefix / "share").mkdir()
        (prefix / "share/zsh").write_text("no folder")
        told = install(prefix)
        self.expect("it fails", told.status == 1 and (prefix / "bin/pmtrim").exists(), told)
        told = install("uninstall", prefix)
        self.expect("it is removed", told.status == 0 and files_below(prefix) == {"share/zsh"}, files_below(prefix))

    def test_one_package(self):
        prefix = self.new_folder()
        install("--package", "pmtrim", prefix)
        self.expect("pmtrim alone", (prefix / "bin/pmtrim").exists() and not (prefix / "bin/pmtrim-record").exists(), files_below(prefix))
        both = files_below(prefix)
        install("--package=pmtrim-record", prefix)
        self.expect("and then the other", (prefix / "bin/pmtrim-record").exists(), files_below(prefix))
        install("uninstall", "--package", "pmtrim-record", prefix)
        self.expect_equal("and without it", files_below(prefix), both)

    def test_another_version(self):
        """What an earlier version had and this one has not is removed, and all is removed in the end."""
        prefix = self.new_folder()
        install("--package", "pmtrim", prefix)
        (prefix / "share/pmtrim/older").mkdir()
        (prefix / "share/pmtrim/older/file").write_text("of an earlier version")
        with open(prefix / "share/pmtrim/pmtrim.files", "a") as file:
            file.write("share/pmtrim/older/\nshare/pmtrim/older/file\n")
        told = install("--package", "pmtrim", prefix)
        self.expect("it is installed again", told.status == 0, told)
        self.expect("the earlier file is gone", not (prefix / "share/pmtrim/older").exists(), "it is there")
        install("uninstall", prefix)
        self.expect_equal("all is gone", list(prefix.iterdir()), [])

    def test_destdir(self):
        folder = self.new_folder()
        told = install("--destdir", folder / "root", "--package", "pmtrim", "/opt/pmtrim")
        self.expect("below a folder", told.status == 0 and (folder / "root/opt/pmtrim/bin/pmtrim").is_file(), told)
        self.expect("and nowhere else", not pathlib.Path("/opt/pmtrim").exists(), "/opt/pmtrim is there")
        named = [path for path in files_below(folder / "root") if "/bin/" not in path and str(folder).encode() in (folder / "root" / path).read_bytes()]
        self.expect_equal("no file names that folder", named, [])
        told = install("uninstall", "--destdir", folder / "root", "/opt/pmtrim")
        self.expect("it is removed", told.status == 0 and not files_below(folder), files_below(folder))

    def test_words(self):
        for words, wanted in (
            (["--frob"], "there is no option --frob"),
            (["a", "b"], "there is a word too many, b"),
            (["--destdir"], "--destdir takes a word"),
            (["--package", "all", "a"], "there is no package all, but pmtrim and pmtrim-record"),
        ):
            told = run(["./install", *words])
            self.expect(f"{words}", (told.status, told.out) == (2, "") and wanted in told.err, told)
