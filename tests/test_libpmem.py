"""Builds and runs programs with the libraries that record libpmem and libpmem2.

The traces that the programs of tests/recorders/libpmem must give are written out in libpmem_traces.py. So are those of the examples that
Debian packages with libpmem and libpmem2, where they are short; of the longer ones the stores must rebuild the file. What the calls answer
must be what libpmem and libpmem2 themselves answer.
"""
import pathlib
import re

from documents import expect_shown
from libpmem_traces import ADOPTS, BOTH, CALLED, CALLS, CALLS2, CHILD, EXAMPLES, FORGETS, POOLS, PRIVATE, REMOVED, SECOND, SHAPES, UNMAPPED, stores
from needs import need
from program import TOP
from recording import Recording, need_compiler, rebuilt, source_of, text_of
from running import run_as_shown

HERE = TOP / "tests/recorders/libpmem"
DEBIAN = pathlib.Path("/usr/share/doc")
STRICT = ["-Wall", "-Wextra", "-Werror", "-Wcast-qual", "-g"]
PEDANTIC = "-Wpedantic -Wshadow -Wconversion -Wcast-qual -Werror"
COMPILERS = {
    "gcc": ["gcc", "-std=c11", "-D_GNU_SOURCE"],
    "clang": ["clang", "-std=c11", "-D_GNU_SOURCE"],
    "g++": ["g++", "-std=c++17", "-x", "c++"],
    "clang++": ["clang++", "-std=c++17", "-x", "c++"],
}
ADDRESS, THREAD = "-fsanitize=address,undefined", "-fsanitize=thread"
# By what each build of the libraries is made.
LIBRARIES = {
    "gcc": ("gcc",), "clang": ("clang",), "asan": ("gcc", ADDRESS), "clang-asan": ("clang", ADDRESS), "tsan": ("gcc", THREAD),
    "clang-tsan": ("clang", THREAD),
}
# Of each package one example of those that must be there.
PACKAGED = ("libpmem-dev/examples/simple_copy", "libpmem2-dev/examples/redo/redo", "libpmemobj-dev/examples/string_store/writer")
# A compiler of programs, and the one that the library was built by.
EACH = (("gcc", "gcc"), ("clang", "clang"), ("g++", "clang"), ("clang++", "gcc"))


def bytes_of(path):
    return path.read_bytes() if path.exists() else b""


class Libpmem(Recording):
    """What programs of these libraries leave."""

    @classmethod
    def setUpClass(cls):
        super().setUpClass()
        need("pkg-config", "pkg-config")
        need("libpmem-dev libpmem2-dev libpmemobj-dev", *(str(DEBIAN / f"{example}.c") for example in PACKAGED))

    # Building

    def library(self, name):
        """The folder of the libraries, which must be built without a word."""
        compiler, *flags = LIBRARIES[name]
        need_compiler(compiler, *flags)
        out = self.builds / f"out.{name}"
        makes = ["make", "-s", "-j2", "-C", TOP / "recorders/libpmem", f"OUT={out}", f"CC={compiler}", f"CFLAGS=-O2 -g {PEDANTIC} {' '.join(flags)}"]
        return self.expect_built(out, makes)

    def build(self, source, compiler="gcc", library="gcc", flags=(), strict=True, uses="libpmem"):
        """A program with a library, as pkg-config says that it is to be built."""
        need_compiler(compiler)
        built = self.builds / f"{source.stem}.{compiler}.{library}{''.join(map(str, flags)).replace('/', '.')}"
        says = run_as_shown(["pkg-config", "--cflags", "--libs", uses], {"PKG_CONFIG_PATH": str(self.library(library) / "lib/pkgconfig")})
        words = [*COMPILERS[compiler], *(STRICT if strict else ["-g"]), *flags, "-I", HERE, source, "-x", "none", "-o", built, *says[1].split()]
        return self.expect_built(built, words)

    # Judging

    def labels(self, trace):
        """The label of each event, after pmtrim-lines found the source lines."""
        path = trace.with_name(trace.name + ".labels")
        self.expect(f"lines of {path.name}", run_as_shown([TOP / "recorders/libpmem/pmtrim-lines", path], cwd=TOP) == (0, ""), text_of(path)[:200])
        entries = [line.split(" ", 1) for line in text_of(path).splitlines()]
        right = [number for number, _ in entries] == [str(number + 1) for number in range(text_of(trace).count("\n") - 1)]
        self.expect(f"{path.name} has a label for each event", right, entries[:3])
        return [label for _, label in entries]

    def runs(self, name, words, told="", **options):
        """It must end well, and write that."""
        answer = run_as_shown(words, **options)
        self.expect(f"{name} runs", answer == (0, told), answer)

    def says(self, name, words, pattern, **options):
        """It must end well, and write what the pattern has."""
        status, told = run_as_shown(words, **options)
        self.expect(f"{name}: what is missing is said", status == 0 and re.fullmatch(pattern, told), (status, told))

    def gives(self, name, trace, wanted):
        self.expect(f"the trace of {name}", text_of(trace) == wanted, text_of(trace))
        return self.report(trace)

    # The calls

    def test_each_call_of_libpmem(self):
        """Each call is in the trace what the pages say, in C and in C++; its label is the line that called."""
        for compiler, library in (*EACH, ("gcc", "asan"), ("clang", "clang-asan")):
            flags = [ADDRESS] if "asan" in library else ["-O2"]
            program = self.build(HERE / "calls.c", compiler, library, flags)
            pool = self.new_folder() / "pool"
            name, trace = f"calls, {compiler} and {library}", pool.with_name("pool.trace")
            self.runs(name, [program, pool])
            self.gives(name, trace, CALLS)
            self.expect(f"{name}: the stores rebuild the file", rebuilt(trace, bytes(16000)) == bytes_of(pool), "they do not")
            sources = [source_of(label) for label in self.labels(trace)]
            wanted = [piece for count, piece in CALLED for _ in range(count)]
            right = len(sources) == len(wanted) and all(piece in source for piece, source in zip(wanted, sources))
            self.expect(f"{name}: the labels", right, [pair for pair in zip(wanted, sources) if pair[0] not in pair[1]][:3])

    def test_whatever_functions_can_do(self):
        """What can be done with functions can be done with these."""
        for compiler, library in EACH:
            program = self.build(HERE / "shapes.c", compiler, library)
            pool = self.new_folder() / "pool"
            self.runs(f"shapes, {compiler}", [program, pool])
            self.gives(f"shapes, {compiler}", pool.with_name("pool.trace"), SHAPES)

    def test_each_call_of_libpmem2(self):
        for compiler, library in (*EACH, ("gcc", "asan"), ("clang", "clang-asan")):
            flags = [ADDRESS] if "asan" in library else ["-O2"]
            program = self.build(HERE / "calls2.c", compiler, library, flags, uses="libpmem2")
            folder = self.new_folder()
            name = f"calls2, {compiler} and {library}"
            self.says(name, [program, folder], PRIVATE, known={"PMTRACE_WATCH": "all"})
            self.gives(name, folder / "one.trace", CALLS2)

    def test_answers_are_libpmems_own(self):
        """The calls answer what those of libpmem and libpmem2 themselves answer."""
        forced = {"results": {"PMEM_IS_PMEM_FORCE": "1"}, "results2": {"PMEM2_FORCE_GRANULARITY": "CACHE_LINE"}}
        for name, uses in (("results", "libpmem"), ("results2", "libpmem2")):
            real, answers = self.folder / f"{name}.real", []
            self.expect_built(real, ["gcc", "-g", HERE / f"{name}.c", "-o", real, f"-l{uses[3:]}"])
            for program in (real, self.build(HERE / f"{name}.c", uses=uses)):
                said, folder = self.folder / f"{program.name}.told", self.new_folder()
                answers.append(run_as_shown(["sh", "-c", f'"$1" "$2" 2> "{said}"', "sh", program, folder], known=forced[name]))
            right = answers[0] == answers[1] and answers[0][0] == 0 and answers[0][1].count("\n") > 30
            differ = [pair for pair in zip(*(answer[1].splitlines() for answer in answers)) if pair[0] != pair[1]]
            self.expect(f"{name}: the answers are libpmem's own", right, f"{answers[0][0]} {answers[1][0]} {differ}")

    # Several files, threads, processes

    def test_pools(self):
        for library, flags in (("gcc", []), ("asan", [ADDRESS])):
            folder = self.new_folder()
            self.runs(f"pools, {library}", [self.build(HERE / "pools.c", "gcc", library, flags), folder])
            self.gives(f"pools, {library}", folder / "one.trace", POOLS)

    def test_a_file_that_is_made_anew_is_another(self):
        """A file that is removed and made anew is another, whatever inode number it gets."""
        for library, flags in (("gcc", []), ("asan", [ADDRESS])):
            pool = self.new_folder() / "pool"
            self.runs("removed", [self.build(HERE / "removed.c", "gcc", library, flags), pool])
            self.gives("removed", pool.with_name("pool.trace"), REMOVED)

    def test_own_mappings_are_adopted(self):
        """What the program mapped by itself is recorded where pmem_is_pmem is told to say yes, from its answer on; else it is not."""
        program = self.build(HERE / "adopts.c")
        for force, answer, wanted in (("1", "1 1\n", ADOPTS), ("0", "0 0\n", None), ("", "0 0\n", None)):
            pool = self.new_folder() / "pool"
            self.runs(f"adopts, {force}", [program, pool], answer, known={"PMEM_IS_PMEM_FORCE": force} if force else {})
            if wanted is not None:
                self.gives("adopts", pool.with_name("pool.trace"), wanted)
            else:
                self.expect("adopts nothing", not pool.with_name("pool.trace").exists(), "there is a trace")

    def test_both_libraries_have_one_recorder(self):
        """A program with both libraries has one recorder."""
        folder, out = self.new_folder(), self.library("gcc") / "lib"
        for order in (["-lpmem", "-lpmem2"], ["-lpmem2", "-lpmem"]):
            program = self.folder / f"both{order[0]}"
            words = [*COMPILERS["gcc"], *STRICT, "-I", out.parent / "include", HERE / "both.c", "-o", program, "-L", out, *order]
            self.expect_built(program, words)
            self.runs(f"both, {order}", [program, folder])
            self.gives(f"both, {order}", folder / "one.trace", BOTH)

    def test_configure_scripts_find_it(self):
        """A configure script that tries to compile, as fio's does, finds the libraries by CPATH and LIBRARY_PATH."""
        out, probe = self.library("gcc"), self.folder / "probe"
        places = {"CPATH": str(out / "include"), "LIBRARY_PATH": str(out / "lib")}
        tries = (("pmem", "pmem_is_pmem(0, 0)"), ("pmem", "pmem_memcpy(0, 0, 0, 0) != 0"), ("pmem2", "pmem2_config_new(0)"))
        for library, call in tries:
            probe.with_suffix(".c").write_text(f"#include <lib{library}.h>\nint main(void) {{ return {call}; }}\n")
            built = run_as_shown(["gcc", "-o", probe, probe.with_suffix(".c"), f"-l{library}"], known=places)
            self.expect(f"{call} is found", built == (0, "") and "libpmem" not in run_as_shown(["objdump", "-p", probe])[1], built)

    def test_labels_of_tail_calls(self):
        """The label is where the call returns to, with the function, and of an inlined one with its caller."""
        inlined = "save < main tests/recorders/libpmem/tails.c:20"
        for flags, wanted, function in (
            ([], "here its caller is", "main"),
            (["-fno-optimize-sibling-calls"], "here it is called", "save"),
            (["-DAPART="], "here it is called", inlined),
        ):
            pool = self.new_folder() / "pool"
            self.runs("tails", [self.build(HERE / "tails.c", flags=["-O2", *flags]), pool])
            labels = self.labels(pool.with_name("pool.trace"))
            right = len(labels) == 3 and all(wanted in source_of(label) and label.partition(" ")[2] == function for label in labels)
            self.expect(f"tails: {wanted}, {function}", right, labels)

    def test_what_is_not_recorded_is_refused(self):
        """What can't be recorded is refused by name."""
        words = ["gcc", "-DPMEM2_USE_MINIASYNC", "-I", self.library("gcc") / "include", "-c", HERE / "calls2.c", "-o", "/dev/null"]
        status, told = run_as_shown(words)
        self.expect("asynchronous calls", status == 1 and "the asynchronous calls of libpmem2 are not recorded" in told, told)
        folder, basic = self.new_folder(), self.example("libpmem2-dev", "basic/basic.c")
        (folder / "pool").write_bytes(bytes(4096))
        ran = run_as_shown([basic, "pool"], cwd=folder, known={"PMEM2_FORCE_GRANULARITY": "BYTE"})
        wanted = "pmem2_map_new: no recorded memory has the granularity of bytes (eADR)\n"
        self.expect("a granularity of bytes", ran == (1, wanted) and not (folder / "pool.trace").exists(), ran)
        ran = run_as_shown([basic, "pool"], cwd=folder, known={"PMTRACE_FILE": "none/trace"})
        wanted = "pmtrace: none/trace: No such file or directory; nothing is recorded\n"
        self.expect("a trace that can't be made", ran == (0, wanted), ran)

    def test_threads(self):
        address, thread = [ADDRESS], ["-fsanitize=thread"]
        for compiler, library, flags in (("gcc", "gcc", []), ("gcc", "asan", address), ("gcc", "tsan", thread), ("clang", "clang-tsan", thread)):
            pool = self.new_folder() / "pool"
            trace = pool.with_name("pool.trace")
            program = self.build(HERE / "threads.c", compiler, library, [*flags, "-pthread", "-I", TOP / "recorders/c"])
            self.runs(f"threads, {library}", [program, pool])
            self.expect(f"threads, {library}: the stores rebuild the file", rebuilt(trace, bytes(1 << 15)) == bytes_of(pool), "they do not")
            status, report = self.report(trace)
            self.expect(f"threads, {library}: all is persisted", status == 0 and report.count(" pass\n") == 160, report[-200:])

    def test_a_plain_store_is_found(self):
        """A plain store that nobody made persistent is found, by the line that noticed it."""
        pool = self.new_folder() / "pool"
        trace = pool.with_name("pool.trace")
        self.runs("forgets", [self.build(HERE / "forgets.c"), pool])
        status, report = self.gives("forgets", trace, FORGETS)
        self.expect("forgets: the store is found", status == 1 and "never-persisted 6 dirty\n" in report, report)
        labels = self.labels(trace)
        right = len(labels) == 7 and "pmem_persist(pool + 128, 1)" in source_of(labels[5])
        self.expect("forgets: its label", right, labels)

    def test_each_process_has_its_trace(self):
        program = self.build(HERE / "processes.c")
        saved = "pmtrace 2 64\nstore 0 0x0 {:02x}\nclwb 0 0x0\nsfence 0\n"
        folder = self.new_folder()
        self.runs("processes apart", [program, "apart", folder])
        for name, byte in (("one", 1), ("two", 2)):
            self.gives(f"processes apart, {name}", folder / f"{name}.trace", saved.format(byte))
        folder = self.new_folder()
        self.says("an inherited pool", [program, "inherited", folder], CHILD.format(folder / "one.trace"))
        self.report(folder / "one.trace")
        folder = self.new_folder()
        trace = folder / "both.trace"
        self.says("one trace for two", [program, "same", folder], SECOND.format(trace), known={"PMTRACE_FILE": str(trace)})
        self.gives("one trace for two: the first is whole", trace, saved.format(1))

    # Examples that Debian packages

    def example(self, package, path, library="libpmem2"):
        """Built unchanged."""
        return self.build(DEBIAN / package / "examples" / path, strict=False, uses=library)

    def test_examples_of_libpmem(self):
        """The examples of libpmem."""
        data = bytes(number * 7 % 251 for number in range(10000))
        for name, size in (("simple_copy", 4096), ("full_copy", 10000)):
            folder = self.new_folder()
            (folder / "source").write_bytes(data[:size])
            built = self.example("libpmem-dev", f"{name}.c", "libpmem")
            self.runs(name, [built, folder / "source", folder / "copy"])
            wanted = "pmtrace 2 64\n"
            for at in range(0, size, 4096):
                piece = data[at : min(at + 4096, size)]
                wanted += stores(at, piece) + "".join(f"clflushopt 0 {line:#x}\n" for line in range(at, at + len(piece), 64))
            self.gives(name, folder / "copy.trace", wanted + "sfence 0\n")
            self.expect(f"{name}: the copy", bytes_of(folder / "copy") == data[:size], "it is another")
            self.as_built(f"libpmem-dev/examples/{name}.c", "-lpmem", ["source", "again"], folder, wanted + "sfence 0\n")
        built = self.example("libpmem-dev", "manpage.c", "libpmem")
        if not pathlib.Path("/pmem-fs").exists():
            self.expect("manpage", run_as_shown([built]) == (1, "pmem_map_file: No such file or directory\n"), run_as_shown([built]))

    def as_built(self, source, library, words, folder, wanted):
        """A program built with libpmem or libpmem2 itself runs as it is with the shared library."""
        program = self.folder / f"{pathlib.Path(source).stem}.real"
        self.expect_built(program, ["gcc", "-g", DEBIAN / source, "-o", program, library])
        path = {"LD_LIBRARY_PATH": str(self.library("gcc") / "shared")}
        self.runs(program.name, [program, *words], known=path, cwd=folder)
        self.gives(program.name, folder / f"{words[-1]}.trace", wanted)

    def test_examples_of_libpmem2(self):
        """The examples of libpmem2."""
        for name, sizes, runs in EXAMPLES:
            folder = self.new_folder()
            for file, size in sizes.items():
                with open(folder / file, "wb") as made:
                    made.truncate(size)
            program = self.example("libpmem2-dev", f"{name}/{name}.c")
            for words, wanted, trace in runs:
                self.one_run(name, [program, *words], folder, wanted, trace)
            first = next(iter(sizes))
            if name == "basic":
                (folder / "again").write_bytes(bytes(4096))
                self.as_built("libpmem2-dev/examples/basic/basic.c", "-lpmem2", ["again"], folder, runs[0][2])
            if name == "ringbuf":
                memory = rebuilt(folder / f"{first}.trace", bytes(sizes[first]))
                self.expect(f"{name}: the stores rebuild the file", memory == bytes_of(folder / first), "they do not")

    def one_run(self, name, words, folder, wanted, trace):
        status, told = run_as_shown(words, cwd=folder)
        self.expect(f"{name} {words[1]} runs", (status, bool(re.fullmatch(wanted, told))) == (0, True), (status, told))
        made = next(folder.glob("*.trace"), folder / "none")
        if trace is not None:
            self.gives(f"{name} {words[1]}", made, trace)
        else:
            self.report(made)

    def test_fault_of_redo_is_told(self):
        """The example redo flushes the address of a variable instead of its log. It is told, by the line."""
        folder, redo = self.new_folder(), self.example("libpmem2-dev", "redo/redo.c")
        (folder / "pool").write_bytes(bytes(16384))
        status, told = run_as_shown([redo, "add", "pool", "1", "2"], cwd=folder)
        place = re.match(r"pmtrace: (.*\+0x[0-9a-f]+): ", told)
        (folder / "told.labels").write_text(f"1 {place[1] if place else told}\n")
        run_as_shown([TOP / "recorders/libpmem/pmtrim-lines", folder / "told.labels"], cwd=TOP)
        line = source_of(text_of(folder / "told.labels").rstrip("\n").split(" ", 1)[1])
        self.expect("redo: the flush that is no flush", status == 0 and "Persist(&redo, " in line, (told, line))

    def test_libpmemobj_as_it_is(self):
        """An example of libpmemobj, built with the packaged library, runs as it is with the shared library; what is missing is said."""
        folder, program = self.new_folder(), self.folder / "writer"
        self.expect_built(program, ["gcc", "-g", DEBIAN / "libpmemobj-dev/examples/string_store/writer.c", "-o", program, "-lpmemobj"])
        force = {"PMEM_IS_PMEM_FORCE": "1", "LD_LIBRARY_PATH": str(self.library("gcc") / "shared")}
        self.says("libpmemobj", ["sh", "-c", 'echo recorded | "$1" pool', "sh", program], UNMAPPED, cwd=folder, known=force)
        self.report(folder / "pool.trace")
        reopens = self.folder / "reopens"
        self.expect_built(reopens, ["gcc", "-g", HERE / "reopens.c", "-o", reopens, "-lpmemobj"])
        status, told = run_as_shown([reopens, "again"], cwd=folder, known=force)
        self.expect("libpmemobj: a pool is opened again", status == 0 and "opened again\n" in told, told)
        self.report(folder / "again.trace")
        text = text_of(folder / "pool.trace")
        self.expect("libpmemobj: its stores are there", f" {b'recorded'.hex()}\n" in text and text.count("\nsfence ") > 10, text[-200:])

    def test_page_shows_what_is_written(self):
        """The commands that recorders/libpmem/README.md shows."""
        expect_shown(self, "recorders/libpmem/README.md")
