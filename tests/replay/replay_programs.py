"""Programs that are recorded with the pool's first bytes, and whose own recovery is the checker."""
import os
import re

from needs import need_recorder
from program import TOP
from replay_runs import HERE, Replayed, counts_of, groups_of, write_trace

RECORD = TOP / "recorders/valgrind/pmtrim-record"
LIBPMEM = TOP / "recorders/libpmem/out"
BY_HEADER = ["gcc", "-Wall", "-Wextra", "-Werror", "-pthread", "-I", TOP / "recorders/c"]
BY_LIBPMEM = ["gcc", "-g", "-Wall", "-Wextra", "-Werror", "-I", LIBPMEM / "include"]
PLAIN = ["gcc", "-O1", "-g", "-mclwb", "-Wall", "-Wextra", "-Werror"]
# What the groups of the example have kept and lost: its balances are stored in line 49, its log's entries in line 40 and its length in line 42.
UNDO_LOG = [(40, 49), (42,), (42, 49)]


class Programs(Replayed):
    """A list, a log and a hash table, right and wrong, each by another recorder; the bases; the example."""

    @classmethod
    def setUpClass(cls):
        super().setUpClass()
        need_recorder()
        need_recorder("recorders/libpmem")

    def build(self, name, compiler, words=(), behind=()):
        made = self.builds / (name + "".join(words))
        return self.expect_built(made, [*compiler, *words, HERE / f"{name}.c", "-o", made, *behind])

    def test_recovery_of_a_list(self):
        self.structure("list", "list.trace", "no node", "list->head, number", "*node, filled", BY_HEADER)

    def test_recovery_of_a_log(self):
        self.structure("log", "log.pool.trace", "is torn", "&log->end", "pmem_", BY_LIBPMEM, ["-L", LIBPMEM / "lib", "-lpmem", "-pthread"])

    def test_recovery_of_a_table(self):
        self.structure("table", "table.trace", "another's value", "].", None, PLAIN, recorder=[RECORD, "--base", "--trace", "table.trace"])

    def structure(self, name, trace, said, kept, lost, compiler, behind=(), recorder=()):
        for words, wrong in (((), False), (("-DWRONG",), True)):
            program, pool = self.build(name, compiler, words, behind), self.folder / f"{name}.pool"
            pool.unlink(missing_ok=True)
            done = self.call([*recorder, program, pool.name], {} if recorder else {"PMTRACE_BASE": "1"})
            self.expect(f"{program.name} is recorded", done[0] == 0, done)
            self.call([TOP / "recorders/libpmem/pmtrim-lines", f"{trace}.labels"])
            told = self.checked(trace, program, wrong, said)
            lines = (HERE / f"{name}.c").read_text().splitlines()
            for _, head, _ in groups_of(told):
                sites = [lines[int(number) - 1] for number in re.findall(r":(\d+)", head)]
                self.expect(f"{program.name}: {head}", kept in sites[0] and (lost in sites[1] if lost else len(sites) == 1), sites)

    def checked(self, trace, program, wrong, said):
        """The wrong one is refused by its own check of some image, the right one by none."""
        status, told, faults = self.replay([trace, "--", program, "check", "{}"])
        name = f"images of {program.name}"
        self.expect(name, (status, faults) == (int(wrong), ""), told + faults)
        crashes, images, failed, _ = counts_of(told)
        self.expect(f"{name}: counts", crashes >= images > 10 and (failed > 0) == wrong, told)
        self.expect(f"{name}: what the checker said", (said in told) == wrong, told)
        return told

    def test_bases_by_header(self):
        program = self.build("bases", BY_HEADER)
        first, second = b"a" * 300, b"b" * 100 + bytes(200000 - 101) + b"c"
        self.expect_bases(program, {"PMTRACE_BASE": "1"}, first, second, 0, "")
        later = first[:50] + b"x" * 50 + first[100:]
        self.expect_bases(program, {"PMTRACE_BASE": "1", "PMTRACE_START": "7"}, later, second, 0, "")
        self.expect_bases(program, {"PMTRACE_BASE": "1", "LIMIT": "100"}, None, None, 1, "bases.trace.base2: File too large; there is no base")
        self.expect_bases(program, {"PMTRACE_BASE": "1"}, first, second, 0, "")
        self.expect_bases(program, {}, None, None, 0, "")

    def expect_bases(self, program, environment, first, second, status, told):
        """Where a file may have few blocks, SIGXFSZ is ignored, so that the write fails."""
        limit = f"trap '' XFSZ; ulimit -f {environment['LIMIT']}; " if "LIMIT" in environment else ""
        done = self.call(["bash", "-c", f"{limit}exec {program}"], environment)
        self.expect(f"bases {environment}", done[0] == status and told in done[2], done)
        for number, bytes_before, origin in (("", first, "0x0\n"), ("2", second, "0x10000000000\n")):
            base, address = (self.folder / f"bases.trace.{kind}{number}" for kind in ("base", "origin"))
            if bytes_before is None:
                self.expect(f"no base{number} {environment}", not base.exists() and not address.exists(), "it is there")
                continue
            right = base.exists() and base.read_bytes() == bytes_before and address.read_text() == origin
            self.expect(f"base{number} {environment}", right, base.exists() and base.read_bytes()[:400])

    def test_bases_by_valgrind(self):
        program = self.build("pools", PLAIN)
        before = bytearray(8192)
        before[100:106] = b"before"
        for words in ([], ["--start-after", "format"]):
            done = self.call([RECORD, "--base", *words, program])
            self.expect(f"pools {words} is recorded", done[0] == 0, done)
            if words:
                before[:64] = b"f" * 64
            self.expect_file(f"pools.trace.base {words}", "pools.trace.base", bytes(before))
            self.expect_file(f"pools.trace.base2 {words}", "pools.trace.base2", b"other" + bytes(4091))
            self.expect_file(f"pools.trace.origin2 {words}", "pools.trace.origin2", b"0x10000000000\n")
        done = self.call([RECORD, program])
        self.expect("without --base there is none", done[0] == 0 and not (self.folder / "pools.trace.base").exists(), done)
        self.empty_folder("pools.trace.base")
        done = self.call([RECORD, "--base", program])
        told = "pools.trace.base: Is a directory; there is no base of" in done[2] and "bases of pools: 1" in done[2]
        self.expect("a base that can't be written is told", done[0] == 0 and told, done)

    def expect_file(self, name, path, wanted):
        path = self.folder / path
        self.expect(name, path.exists() and path.read_bytes() == wanted, path.exists() and path.read_bytes()[:200])

    def test_checkers_see_both_pools(self):
        """A checker sees both pools of one crash: what is stored first is saved first."""
        lines = ["store 0 0x8 01", "clwb 0 0x8", "sfence 0", "store 0 0x10000000010 01"]
        write_trace(self.folder / "two.trace", "pmtrace 2 64", lines, bytes(64), 0)
        (self.folder / "two.trace.base2").write_bytes(bytes(100))
        (self.folder / "two.trace.origin2").write_text("0x10000000000\n")
        check = 'one=$(od -An -tu1 -j8 -N1 "$1") two=$(od -An -tu1 -j16 -N1 "$2"); echo "$one$two" >> seen; [ $one -ge $two ]'
        status, told, faults = self.replay(["--jobs", "1", "two.trace", "--", "sh", "-c", check, "x", "{}", "{2}"])
        self.expect("two pools", (status, faults, counts_of(told)[1:3]) == (0, "", (3, 0)), told + faults)
        seen = sorted((self.folder / "seen").read_text().split("\n"))
        self.expect("two pools: what checkers saw", [line.split() for line in seen if line] == [["0", "0"], ["1", "0"], ["1", "1"]], seen)

    def test_recovery_of_the_example(self):
        """The example's claims hold, its recovery fails, and the mended one does not; its trace is what it records."""
        source = TOP / "examples/undo_log.c"
        for words, status in ((["-DMENDED"], 0), ([], 1)):
            program = self.folder / "undo_log"
            done = self.call([*BY_HEADER, *words, source.relative_to(TOP), "-o", program], cwd=TOP)
            self.expect("undo_log is built", done[0] == 0, done)
            done = self.call([program, "accounts.pool"], {"PMTRACE_BASE": "1"})
            self.expect("undo_log is recorded", done[0] == 0, done)
            for ending in ("trace", "trace.base", "trace.origin", "trace.labels"):
                self.expect_file(f"examples/undo_log.{ending}", f"undo_log.{ending}", (TOP / f"examples/undo_log.{ending}").read_bytes())
            done = self.replay(["undo_log.trace", "--", program, "recover", "{}"])
            self.expect(f"undo_log {words}", done[0] == status and ("add up to" in done[1]) == bool(status), done)
        groups = groups_of(done[1])
        sites = [tuple(int(number) for number in re.findall(r":(\d+)", head)) for _, head, _ in groups]
        self.expect("the groups", sorted(sites) == UNDO_LOG and sum(count for count, *_ in groups) == counts_of(done[1])[2], done[1])
        self.commands_run(re.findall(r"^ +(pmtrim .*)$", done[1], re.M))

    def commands_run(self, commands):
        """Each command that is told runs as it stands: the checker fails on the image that it makes, and at last the picture is drawn."""
        (self.folder / "pmtrim").symlink_to(self.program)
        for command in commands:
            done = self.call(["sh", "-c", command], {"PATH": f"{self.folder}:{os.environ['PATH']}"})
            self.expect(command, done[0] == int(command != commands[-1]) and ("add up to" in done[1]) == bool(done[0]), done)
        self.expect("commands", len(commands) == len(UNDO_LOG) + 1 and (self.folder / "crash.svg").exists(), commands)
