"""Runs programs under pmtrim-record that write to files, by themselves and through the system, sqlite3 among them.

What must stand in a trace follows from what the programs of tests/recorders/valgrind do, or is the file's last bytes.
"""
import os
import pathlib
import re
import shlex
import subprocess

from needs import need
from recording import POOL, events_of, rebuilt, stores_of, text_of
from running import run
from valgrind_runs import RECORD, SOURCES, Recorded

SQLITE = """\
pragma journal_mode = wal;
pragma synchronous = SYNCHRONOUS;
.dbconfig no_ckpt_on_close on
create table words (number integer primary key, word text);
insert into words select value, hex(zeroblob(value)) from generate_series(1, 100);
pragma wal_checkpoint(passive);
"""

# The last functions of names.cpp that are called, with the numbers of the arguments that are what they save, and that.
SPELLED = (
    ("tree::(anonymous namespace)::grow", "1,2", "0x140 1"),
    ("tree::Root::operator()", "2,3", "0x180 1"),
    ("tree::Numbered<char, (unsigned char)8>::put", "2,3", "0x1c0 1"),
    ("main::{lambda(char*, unsigned long)#1}::operator()", "2,3", "0x200 1"),
)


class Files(Recorded):
    """What is recorded of files, and which of them are pools."""

    def test_which_files_are_pools(self):
        """Which files are pools: one by its name, those of a folder, those that begin so; and the form that may mean either."""
        program, pool = self.build("nofile"), self.folder / "named/lm.pool"
        pool.parent.mkdir()
        lock = f"{pool}-lock"
        for words, wanted in (
            ([f"--pool={pool}"], [str(pool)]),
            ([f"--pool={pool.parent}/"], [str(pool), lock]),
            ([f"--pool={pool.parent}"], [str(pool), lock]),
            (["--pool-prefix", f"{pool}-"], [lock]),
            ([f"--pool-prefix={pool}"], [str(pool), lock]),
            (["--pool", pool], [str(pool), lock]),
            ([f"--pool={pool}", "--pool", lock], [str(pool), lock]),
        ):
            faults = self.record("named", [program, pool, lock], *words)[3]
            number = len(stores_of(self.folder / "named.trace"))
            self.expect(f"pools by {words}", number == len(wanted), f"{number} {faults}")
            took = re.findall(r"--pool (\S+) took (.*); --pool=FILE takes one file", faults)
            self.expect(f"pools by {words}: no program that is not there", "becomes another" not in faults, faults)
            old = [(str(words[-1]), ", ".join(wanted[-1:] if len(words) > 2 else wanted))] if "--pool" in words else []
            self.expect(f"pools by {words}: what was taken is told", took == old, faults)

    def test_each_call_that_writes(self):
        """Each call that writes to a file, and the calls that save it: what stands in the trace is what stands in the files."""
        program, folder = self.build("files"), self.folder / "written"
        folder.mkdir()
        trace, status, _, faults = self.record("files", [program, folder], "--file", folder / "log", f"--file={folder}/data")
        self.expect("files", status == 0 and "not recorded" not in faults, faults)
        data, log = (folder / "data").read_bytes(), bytearray(400)
        self.expect("files: the data", rebuilt(trace, bytes(len(data)), POOL) == data and len(data) == 8015, len(data))
        for at, text in ((0, b"writewritev, in twowritev, in two"), (100, b"pwrite"), (200, b"writev, in two"), (300, b"writ")):
            log[at : at + len(text)] = text
        events = text_of(trace).splitlines()
        saved = events.index("sfence 0")
        first = self.folder / "files.first"
        first.write_text("\n".join(events[:saved]) + "\n")
        self.expect("files: the log, when it was saved", rebuilt(first, bytes(400)) == log, rebuilt(first, bytes(400)))
        lines = [f"clwb 0 {line:#x}" for line in (0, 0x40, 0xC0, 0x100)]
        self.expect("files: fdatasync", events[saved - 4 : saved] == lines, events[saved - 5 : saved])
        self.expect("files: the log, which was emptied", rebuilt(trace, bytes(400)) == bytes(400), "it is not empty")
        claims = re.findall(r"^(?:persist|ordered) \d+ \w+$", self.report(trace)[1], re.M)
        self.expect("files: claims", [claim.split()[2] for claim in claims] == ["pass", "fail", "pass", "pass", "fail"], claims)
        trace, _, _, found = self.record("files.named", [program, folder], "--base", "--file-prefix", folder / "da")
        base, last = trace.with_name(f"{trace.name}.base").read_bytes(), (folder / "data").read_bytes()
        right = base == data + bytes(8) and rebuilt(trace, base) == last and len(last) == 8023
        self.expect("files: what stood in them before", right, f"{len(base)} {len(last)}")
        wanted = [f"{folder}/data has the addresses from 0x0 on", f"{folder}/data-other has the addresses from 0x10000000000 on"]
        self.expect("files by a prefix", all(line in found for line in wanted) and "/log has" not in found, found)

    def test_log_before_data_of_sqlite(self):
        """Debian's sqlite3 with a write-ahead log: both files are rebuilt, and the order of log and data can be claimed."""
        need("sqlite3", "sqlite3")
        for synchronous, wanted in (("full", "pass"), ("off", "fail")):
            pool = self.folder / f"sqlite.{synchronous}"
            commands = SQLITE.replace("SYNCHRONOUS", synchronous)
            names = [f"--file={pool}{ending}" for ending in ("-wal", "")]
            trace, told = self.folder / f"sqlite.{synchronous}.trace", self.folder / "sqlite.sql"
            told.write_text(commands)
            status, _, faults = run([RECORD, *names, "--trace", trace, "sqlite3", pool, f".read {told}"])
            addresses = {path: int(at, 16) for path, at in re.findall(r"(\S+) has the addresses from (\S+) on", faults)}
            files = {path: pathlib.Path(path).read_bytes() for path in addresses}
            # it makes the database by a journal, before the log is there
            missing = re.search(r"not recorded: (.*?), synced \d+ times \(see --file\); next", faults)
            right = missing and missing[1] == f"writes to {pool}-journal"
            self.expect(f"sqlite {synchronous}", status == 0 and len(files) == 2 and right, faults)
            for path, last in files.items():
                right = len(last) > 20000 and rebuilt(trace, bytes(len(last)), addresses[path]) == last
                self.expect(f"sqlite {synchronous}: {path}", right, len(last))
            self.checkpoint(synchronous, trace, addresses[f"{pool}-wal"], addresses[f"{pool}"], wanted)

    def checkpoint(self, name, trace, log, data, wanted):
        """Claims that each page of the log is saved before it is written to the data."""
        frame, page = 24 + 4096, 4096
        text = rebuilt(trace, bytes(1 << 20), log)
        pages = {}
        for at in range(32, 1 << 20, frame):
            number = int.from_bytes(text[at : at + 4], "big")
            if number > 0:
                pages[number] = at + 24
        claims = [f"isOrderedBefore 0 {log + at:#x} {page} {data + (number - 1) * page:#x} {page}" for number, at in pages.items()]
        claimed = trace.with_name(f"{trace.name}.claimed")
        claimed.write_text(text_of(trace) + "".join(f"{claim}\n" for claim in claims))
        verdicts = re.findall(r"^ordered \d+ (\w+)$", self.report(claimed)[1], re.M)
        self.expect(f"sqlite {name}: log before data", len(verdicts) == len(pages) > 3 and set(verdicts) == {wanted}, verdicts)

    # What the system does besides

    def test_answers_of_the_system(self):
        program, pool = self.build("answers"), self.folder / "answers.pool"
        trace, status, _, faults = self.record("answers", [program, pool])
        last = pool.read_bytes()
        self.expect("answers of the system", status == 0 and rebuilt(trace, bytes(len(last))) == last, faults)
        lengths = [int.from_bytes(last[at : at + 4], "little") for at in range(4096, 4096 + 6 * 64, 64)]
        self.expect("answers: lengths", lengths == [2, 10, 10, 4, 0, 100] and "not recorded" not in faults, lengths)
        # the thread left two locks, and the program one of these, which it took over, and another
        marks = [int.from_bytes(last[at : at + 4], "little") & 0x40000000 != 0 for at in (0, 128, 256, 384)]
        self.expect("answers: the kernel's marks", marks == [True, True, True, False], marks)

    def test_a_hole_takes_little_memory(self):
        """A hole takes little memory, and what is stored behind the end of a file is in no trace."""
        program, pool = self.build("holes"), self.folder / "holes.pool"
        for how in ([], ["advice"]):
            trace, status, _, faults = self.record("holes", [program, pool, 1, *how], "--base")
            last = pool.read_bytes()
            base = trace.with_name(f"{trace.name}.base").read_bytes()
            right = status == 0 and not any(last[: 1 << 20]) and rebuilt(trace, base)[:-2] == last and len(base) == (1 << 20) + 7
            self.expect(f"holes {how}: the file", right, f"{status} {len(base)} {len(last)}")
            self.expect(f"holes {how}: nothing is missing", "emptied" not in faults, faults)
            behind = [address for address, data in stores_of(trace) if address + len(data) > len(base)]
            self.expect(f"holes {how}: behind the end", behind == [], behind)
        words = [RECORD, "--trace", self.folder / "large.trace", program, self.folder / "large.pool", 64]
        with subprocess.Popen([str(word) for word in words], stdout=subprocess.DEVNULL, stderr=subprocess.PIPE) as running:
            faults = running.stderr.read().decode()
            _, status, used = os.wait4(running.pid, 0)
            running.returncode = status
        self.expect("a large hole", status == 0 and used.ru_maxrss < 400_000, f"{used.ru_maxrss} KB")
        missing = re.search(r"events after the end of the trace: (\d+)", faults)
        self.expect("a large hole: counted", missing and int(missing[1]) > (64 << 20) // 8 - 1_000_000, faults)
        self.expect("a large hole: behind the end", "stores behind the end of a pool's file: " in faults, faults)

    def test_at_most_256_pools(self):
        """As many pools as there may be, each known by a descriptor of the recorder's own."""
        folder = self.folder / "many.files"
        folder.mkdir()
        trace, status, _, faults = self.record("many", [self.build("many"), folder, 257])
        found = [int(fields[2], 16) for fields in events_of(trace)]
        self.expect("256 pools", status == 0 and found == [number * POOL for number in range(256)], len(found))
        self.expect("256 pools: the next one", "mappings of a 257th pool or a further one: 1" in faults, faults[-300:])

    def test_why_there_is_no_pool(self):
        """The one pool is named, and files that are none, where that tells why the trace lacks something. The names are those from the folder."""
        program, folder = self.build("others"), self.folder / "others.files"
        folder.mkdir()
        pool, none = "pmtrim-record: the pool is mapped\n", "no file counts as a pool: "
        for options, words, wanted in (
            ([], ["+mapped"], [pool, "others.trace; next: "]),
            ([], ["+mapped", "log"], [pool, "; not recorded: writes to log, synced 2 times (see --file); next: "]),
            ([], ["log", "+mapped", "data", "more"], [pool, "; not recorded: writes to log and 2 more, synced 6 times (see --file); next: "]),
            ([], ["mapped", "+mapped"], [pool, "others.trace; next: "]),
            ([f"--file={folder}/log"], ["log", "data"], ["the pool is log\n", "; not recorded: writes to data, synced 2 times (see --file)"]),
            ([f"--file-prefix={folder}/"], ["log", "data"], [f"{folder}/log has the addresses from 0x0 on", "others.trace; next: "]),
            ([], [], ["; no file was mapped that counts as a pool: see --pool, and --file for a file that is written\n"]),
            ([], ["log"], [f"; {none}log was written (see --file)\n"]),
            ([], ["log", "data", "more"], [f"; {none}log and 2 more were written (see --file)\n"]),
            (["--pool=none"], ["+mapped"], [f"; {none}mapped was mapped (see --pool)\n"]),
            (["--pool=none"], ["+mapped", "log", "+two"], [f"; {none}mapped and 1 more were mapped (see --pool), log was written (see --file)\n"]),
        ):
            trace, status, _, faults = self.record("others", [program, *words], *options, cwd=folder)
            told = status == 0 and all(text in faults for text in wanted) and ("the pool is" in faults) == ("the pool is" in wanted[0])
            self.expect(f"files {words} with {options}", told, faults)
            reason = re.search(f"; ({none}.*)", faults)
            if reason:
                self.is_cut(f"files {words} with {options}", trace, f"0 {reason[1]}\n")

    # Names

    def build_names(self):
        built = self.builds / "functions"
        return self.expect_built(built, ["g++", "-O1", "-g", "-mclwb", "-Wall", "-Wextra", "-Werror", SOURCES / "names.cpp", "-o", built])

    def test_names_of_functions(self):
        """Names of C++ without parameters, and calls that an exception leaves."""
        built = self.build_names()
        for name, wanted in (
            ("save", ["0x0 1", "0x80 1"]),
            ("save(char*, unsigned long, bool)", ["0x0 1", "0x80 1"]),
            ("tree::Leaf::save:2,3", ["0xc0 1"]),
            ("tree::put", ["0x100 8", "0x108 8"]),
            ("tree::put<long>", ["0x100 8"]),
            ("tree::(anonymous namespace)::put<char>", ["0x108 8"]),
            *((f"{name}:{numbers}", [claim]) for name, numbers, claim in SPELLED),
        ):
            trace, status, _, faults = self.record("functions", [built, self.folder / "functions.pool"], "--persist", name)
            found = [" ".join(fields[2:]) for fields in events_of(trace) if fields[0] == "isPersist"]
            self.expect(f"--persist {name}", found == wanted and status == 0, f"{found} {faults}")
            left = "calls of a named function that did not return: 1" in faults
            self.expect(f"--persist {name}: the exception", left == name.startswith("save"), faults)
            several = re.search(r"tree::put is the name of several functions: .*put<long>\(.*, .*put<char>\(", faults) is not None
            self.expect(f"--persist {name}: several", several == (name == "tree::put"), faults)
        faults = self.record("functions", [built, self.folder / "functions.pool"], "--persist", "Leaf::save")[3]
        hint = "Leaf::save was never called by that name: is it inlined, or has it no symbol? Called were: save(char*, unsigned long, bool), "
        hint += "tree::Leaf::save(char*, unsigned long) const\n"
        self.expect("a name that is none: a hint", hint in faults, faults)

    def test_names_as_labels_spell_them(self):
        """Only the brackets of a function's parameters are no part of its name."""
        built = self.build_names()
        trace = self.record("functions", [built, self.folder / "functions.pool"])[0]
        labels = [re.sub(r"^\d+ names.cpp:\d+ ", "", label) for label in text_of(trace.with_name("functions.trace.labels")).splitlines()]
        stores = [label.split(" < ")[0] for label, fields in zip(labels, events_of(trace)) if fields[0] == "store"]
        self.expect("labels: the functions", stores == ["main"] * 5 + [name for name, _, _ in SPELLED], stores)
        for number, (name, _, _) in enumerate(SPELLED):
            trace, _, _, faults = self.record("after", [built, self.folder / "functions.pool"], "--start-after", name)
            stores = [fields[2] for fields in events_of(trace) if fields[0] == "store"]
            # the store whose saving was left by an exception is not safe then
            wanted = ["0x40", *(claim.split(" ")[0] for _, _, claim in SPELLED[number + 1 :])]
            self.expect(f"--start-after {name}", stores == wanted, f"{stores} {faults}")

    def test_next_command_is_quoted(self):
        """The next command is one for the shell, whatever the trace's name is."""
        program = self.build("nofile")
        for name in ("two words", "it's", "plain"):
            trace = self.folder / f"{name}.trace"
            faults = run([RECORD, "--trace", trace, program, self.folder / "quoted.pool"])[2]
            shown = faults.rsplit("; next: ", 1)[-1].rstrip("\n")
            wanted = ["pmtrim", "explain", "--labels", f"{trace}.labels", str(trace)]
            self.expect(f"the next command of {name}", shlex.split(shown) == wanted and ("'" in shown) == (name != "plain"), faults)
