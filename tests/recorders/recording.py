"""For the tests of recorders: building programs, and reading what recorders leave."""
import functools
import pathlib
import sys
import tempfile

from checks import Checks
from needs import need
from program import TOP
from running import run, run_as_shown

PROGRAMS = TOP / "tests/recorders/programs"
HEADERS = TOP / "recorders/c"
PYTHON = {"PYTHONPATH": str(TOP / "recorders/python"), "PYTHONDONTWRITEBYTECODE": "1"}
POOL = 1 << 40  # how many addresses are a pool's own
CARGO = ["--offline", "--locked", "--quiet", "--target-dir"]
STRICT = ["-Wall", "-Wextra", "-Wpedantic", "-Wshadow", "-Wconversion", "-Wcast-qual", "-Werror", "-pthread", "-I", str(HEADERS)]
AS_C = ["gcc", "-x", "c", *STRICT]
AS_CPP = ["g++", "-std=c++17", "-x", "c++", *STRICT]
# Each compiler and language, and the sanitizers of each compiler.
COMPILERS = {
    "gcc": ["gcc", "-std=gnu11", "-x", "c", *STRICT],
    "g++": AS_CPP,
    "clang": ["clang", "-std=c11", "-x", "c", *STRICT],
    "clang++": ["clang++", "-std=c++17", "-x", "c++", *STRICT],
}
SANITIZED = {
    f"{compiler}.{name}": [compiler, "-x", "c", flag, "-fno-sanitize-recover=all", "-O1", "-g", *STRICT]
    for compiler in ("gcc", "clang")
    for name, flag in (("tsan", "-fsanitize=thread"), ("asan", "-fsanitize=address,undefined"))
}


def text_of(path):
    return path.read_text() if path.exists() else ""


def events_of(path):
    """The events of a trace, each with its fields."""
    return [line.split(" ") for line in text_of(path).splitlines()[1:]]


def stores_of(path):
    """The address and the bytes of each store."""
    return [(int(fields[2], 16), bytes.fromhex(fields[3])) for fields in events_of(path) if fields[0] == "store"]


def rebuilt(path, memory, start=0):
    """The bytes of a pool with the stores of a trace written in order; it has the addresses from `start` on."""
    memory = bytearray(memory)
    for address, data in stores_of(path):
        at = address - start
        if 0 <= at < POOL:
            memory[at : at + len(data)] = data
    return bytes(memory)


def labels_of(path):
    """The label of each event by its number. Numbers rise."""
    lines = [line.split(" ", 1) for line in text_of(path.with_name(path.name + ".labels")).splitlines()]
    labels = {int(number): label for number, label in lines}
    if len(labels) != len(lines) or list(labels) != sorted(labels):
        raise ValueError(f"{path}.labels: the numbers do not rise")
    return labels


@functools.cache
def source_of(label):
    """The source line that a label names, or the label. Rust's compiler names files from the crate on."""
    name, _, number = label.partition(" ")[0].rpartition(":")
    path = next((folder / name for folder in (TOP, PROGRAMS / "rust") if (folder / name).is_file()), None)
    return path.read_text().splitlines()[int(number) - 1] if path and number.isdigit() else label


@functools.cache
def need_compiler(command, *flags):
    """The compiler makes programs that run here. NotThere: it does not."""

    def is_there():
        with tempfile.TemporaryDirectory() as folder:
            probe, made = pathlib.Path(folder, "probe.c"), pathlib.Path(folder, "probe")
            probe.write_text("int main(void) { return 0; }\n")
            return run([command, *flags, probe, "-o", made]).status == 0 and run([made]).status == 0

    packages = "clang libclang-rt-14-dev" if "clang" in command else "gcc g++"
    need(packages, command, (" ".join([command, *flags]), is_there))


class Recording(Checks):
    """Tests that build programs once for all of a class, and run each in a folder of its own."""

    @classmethod
    def setUpClass(cls):
        cls.builds, cls.built = cls.shared_folder(), {}

    def setUp(self):
        self.folder = self.new_folder()

    def expect_built(self, made, *commands):
        """What these commands make, for which no compiler says a word; the commands of one name are run once."""
        if made not in self.built:
            said = [run_as_shown(words) for words in commands]
            self.built[made] = all(answer == (0, "") for answer in said)
            self.expect(f"{made.name} is built", self.built[made], "\n".join(told for _, told in said))
        if not self.built[made]:
            self.fail(f"{made.name} is not built")
        return made

    def report(self, trace):
        """The report of a trace, which must be accepted."""
        status, told = run_as_shown([self.program, "check", trace])
        self.expect(f"{trace.name} is accepted", status in (0, 1), told)
        return status, told

    def is_cut(self, name, trace, wanted):
        """What stands beside the trace: after which event it was cut and why; None where it was not."""
        beside = trace.with_name(f"{trace.name}.cut")
        found = beside.read_text() if beside.exists() else None
        self.expect(f"{name}: what the trace says of its end", found == wanted, found)

    def in_language(self, name, language):
        """The command of a program for C, C++, Rust or Python, by the ending of its file."""
        if language == "py":
            return [sys.executable, "-W", "error", PROGRAMS / f"{name}.py"]
        if language != "rs":
            return [self.in_c(name, {"c": AS_C, "cpp": AS_CPP}[language], f".{language}")]
        made = self.builds / "rust"
        need("cargo", "cargo")
        self.expect_built(made, ["cargo", "build", *CARGO, made, "--manifest-path", PROGRAMS / "rust/Cargo.toml"])
        return [made / "debug" / name]

    def in_c(self, name, compiler, ending, flags=()):
        """A program of two files: its own, and the one with the recorder."""
        need_compiler(compiler[0], *(word for word in compiler if word.startswith("-fsanitize")))
        words = [*compiler, *flags]
        recorder = self.builds / f"implementation.{abs(hash(tuple(words)))}.o"
        self.expect_built(recorder, [*words, "-c", PROGRAMS / "implementation.c", "-o", recorder])
        made, own = self.builds / f"{name}{ending}", self.builds / f"{name}{ending}.o"
        linking = [word for word in words if word not in ("-x", "c", "c++")]
        return self.expect_built(made, [*words, "-c", PROGRAMS / f"{name}.c", "-o", own], [*linking, own, recorder, "-o", made])
