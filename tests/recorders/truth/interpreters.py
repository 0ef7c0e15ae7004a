"""The interpreters of random programs: one in C and C++, by several compilers and sanitizers, one in Rust and one in Python."""
import dataclasses
import sys
from collections.abc import Callable

from needs import need
from program import TOP, NotThere
from recording import CARGO, PYTHON, STRICT, need_compiler
from running import run_as_shown
from shapes import make_program, make_safe_program

HERE = TOP / "tests/recorders/truth"
SOURCES = sorted(HERE.glob("*.c"))
SANITIZED = ["-O1", "-g", "-fno-sanitize-recover=all"]
BUILDS = {
    "gcc-c11": ["gcc", "-std=c11", "-O2"],
    "clang-c11": ["clang", "-std=c11", "-O3"],
    "g++-c++17": ["g++", "-std=c++17", "-O3", "-flto", "-x", "c++"],
    "clang++-c++17": ["clang++", "-std=c++17", "-O1", "-x", "c++"],
    "thread": ["gcc", "-std=c11", "-fsanitize=thread", *SANITIZED],
    "address": ["gcc", "-std=c11", "-fsanitize=address,undefined", *SANITIZED],
}
SANITIZERS = ("thread", "address")


@dataclasses.dataclass
class Interpreter:
    """`make` gives the program of a seed. What is `sanitized` does programs alone after which the process lives on."""

    name: str
    command: list
    make: Callable = make_program
    sanitized: bool = False

    def is_safe(self):
        """Whether its recorder has the memory, and hands it out at the close."""
        return self.make is make_safe_program


def build(words):
    """NotThere: a compiler has a word to say."""
    if (answer := run_as_shown(words)) != (0, ""):
        raise NotThere(f"{' '.join(map(str, words))}: {answer[1]}")


def build_in_c(folder):
    made = []
    for name, compiler in BUILDS.items():
        need_compiler(compiler[0], *(word for word in compiler if word.startswith("-fsanitize")))
        build([*compiler, *STRICT, *SOURCES, "-o", folder / name])
        made.append(Interpreter(name, [folder / name], sanitized=name in SANITIZERS))
    return made


def build_in_rust(folder):
    need("cargo", "cargo")
    build(["cargo", "build", *CARGO, folder / "rust", "--manifest-path", HERE / "rust/Cargo.toml"])
    return [Interpreter("rust", [folder / "rust/debug/truth"], make_safe_program)]


def in_python(_):
    words = [f"{name}={value}" for name, value in PYTHON.items()]
    return [Interpreter("python", ["env", *words, sys.executable, HERE / "interpreter.py"], make_safe_program)]
