"""Runs programs under pmtrim-record.

The program must accept every trace. What else must stand in it is written out here, follows from what the programs of
tests/recorders/valgrind do, is the file's last bytes, or is what pmtrace.h wrote of the same program.
"""
import json
import re
import resource
import shutil
import signal
import subprocess

from documents import expect_shown
from program import TOP
from recording import POOL, events_of, rebuilt, stores_of, text_of
from running import ended_by, run, unignore, wait_until
from valgrind_places import Places  # noqa: F401  (the runner runs what stands here)
from valgrind_processes import Processes  # noqa: F401
from valgrind_runs import FOLDER, RECORD, SOURCES, Recorded, drawn
from valgrind_texts import CLAIMED, FINISHED, FIRST_LABELS, FLUSHES, FORMATTED, INLINED_LABELS, LABELS, LOCKED_FLUSHES, SYSTEM, WATCHED, saved, saved_value
from valgrind_threads import Threads  # noqa: F401
from valgrind_windows import Windows  # noqa: F401


class Valgrind(Recorded):
    """What is recorded, where it ends, and what is told."""

    # Stores

    def test_every_kind_of_store(self):
        """Every kind of store: the replayed trace is the file, byte for byte."""
        program, pool = self.build("stores", "-mavx2"), self.folder / "stores.pool"
        for threads in (1, 4):
            words = [program, pool, threads]
            trace, status, told, faults = drawn(lambda: self.record(f"stores{threads}", words, "--pool", pool))
            self.expect(f"stores of {threads}", status == 0 and "not recorded" not in faults, faults)
            kinds, size, head = map(int, re.findall(r"\d+", told) or (0, 1, 0))
            self.each_kind(f"stores of {threads}", trace, pool.read_bytes(), kinds * threads, size, head)
            self.steps(f"stores of {threads}", trace, head + 5 * size)
            numbers = {fields[1] for fields in events_of(trace)}
            self.expect(f"threads of {threads}", numbers == {str(number) for number in range(threads)}, numbers)
        self.seeds(program, pool)

    def each_kind(self, name, trace, last, slots, size, head):
        again = rebuilt(trace, bytes(len(last)))
        self.expect(f"{name}: the file's head", slots > 0 and again[:head] == last[:head], "differs")
        written = set()
        for address, data in stores_of(trace):
            written.update(range(address, address + len(data)))
        for slot in range(slots):
            start, end = head + slot * size, head + (slot + 1) * size
            kept = {place for place in range(start, end) if last[place]}
            self.expect(f"{name}: slot {slot}", len(kept) > 0 and again[start:end] == last[start:end], "differs")
            # masked stores, and a swap that finds something else, store nothing besides
            if slot % 22 in (14, 17):
                stored = {place for place in written if start <= place < end}
                self.expect(f"{name}: slot {slot} alone", stored == kept, sorted(stored ^ kept))

    def steps(self, name, trace, slot):
        """String instructions make events by words: 21 bytes from 3 on, and 19 bytes down from 290."""
        found = [(address - slot, len(data)) for address, data in stores_of(trace) if slot <= address < slot + 1024]
        self.expect(f"{name}: steps upwards", found[:3] == [(3, 5), (8, 8), (16, 8)], found[:8])
        down = [(288, 3), (280, 8), (272, 8)]
        at = found.index((288, 3)) if (288, 3) in found else 0
        self.expect(f"{name}: steps downwards", found[at : at + 3] == down, found[at : at + 8])
        # the slot before: a swap that finds something else stores nothing
        found = [address - slot + 1024 for address, _ in stores_of(trace) if slot - 1024 <= address < slot]
        self.expect(f"{name}: no store by a failed swap", found == [0, 0, 0], found)

    def seeds(self, program, pool):
        """A seed reproduces the run, another seed gives another one, and threads take turns."""
        texts = []
        for number, seed in enumerate((5, 5, 5, 6)):
            trace = drawn(lambda: self.record(f"seed{number}", [program, pool, 4], "--seed", seed, "--pool", pool))[0]
            texts.append(text_of(trace))
        self.expect("one seed, one trace", texts[0] == texts[1] == texts[2] and len(texts[0]) > 100000, "they differ")
        self.expect("another seed, another trace", texts[3] != texts[0], "they are the same")
        numbers = [fields[1] for fields in events_of(trace)]
        turns = sum(one != other for one, other in zip(numbers, numbers[1:]))
        self.expect("threads take turns", turns > 60, turns)
        status, _, told = run([RECORD, "--seeds", 2, "--before", f"rm -f {pool}", "--trace", self.folder / "some", program, pool, 2])
        both = [text_of(self.folder / f"some.{seed}") for seed in (1, 2)]
        self.expect("two seeds", status == 0 and both[0] != both[1] and min(map(len, both)) > 50000, told)

    # Flushes, mappings and the system

    def test_every_kind_of_flush(self):
        program, pool = self.build("flushes"), self.folder / "flushes.pool"
        for name, words, wanted in (("flushes", [], FLUSHES), ("locked", ["--locked-fences"], LOCKED_FLUSHES)):
            trace, status, told, faults = self.record(name, [program, pool], *words)
            wanted = [event.split() for event in wanted.replace("\n", " ").split(",")]
            wanted = "".join(" ".join([event[0], "0", *(f"0x{address}" for address in event[1:])]) + "\n" for event in wanted)
            self.is_text(f"each {name}", trace, wanted)
            self.expect(f"{name}: the processor has them", (status, told) == (0, "clflushopt 1 clwb 1\n"), told)
            outside = "; not recorded: flushes of memory that is in no pool: 3, the first at flushes.c:" in faults
            self.expect(f"{name}: the others are counted", outside, faults)
            self.expect(f"{name}: locked ones are counted", ("locked instructions" in faults) == (name == "flushes"), faults)

    def test_mappings(self):
        program, pools = self.build("mappings"), self.folder / "pools"
        pools.mkdir()
        trace, status, _, faults = self.record("mappings", [program, pools], "--pool", f"{pools}/one", "--pool", f"{pools}/two.")
        self.expect("mappings", status == 0 and "not recorded" not in faults, faults)
        for name, start in (("one", 0), ("two", POOL)):
            last = (pools / f"{name}.pool").read_bytes()
            self.expect(f"mappings: {name}", any(last) and rebuilt(trace, bytes(len(last)), start) == last, "differs")
        total = len(b"".join(data for _, data in stores_of(trace)))
        self.expect("mappings: only pools", all(address % POOL < 1 << 16 for address, _ in stores_of(trace)) and total < 400, total)

    def test_what_the_system_stores(self):
        program, pool = self.build("system"), self.folder / "system.pool"
        trace, status, _, faults = self.record("system", [program, pool])
        self.is_text("by the system", trace, SYSTEM)
        self.expect("by the system: told", status == 0 and "not recorded" not in faults, faults)

    # Claims and windows

    def test_claims(self):
        program, pool = self.build("claims"), self.folder / "claims.pool"
        self.expect("claims outside Valgrind", run([program, pool])[0] == 0, "it fails")
        trace, _, _, faults = self.record("claims", [program, pool])
        self.is_text("claims", trace, FORMATTED + CLAIMED + FINISHED)
        self.expect("claims outside the pool", "claims on memory that is in no pool: 1" in faults, faults)
        trace, _, _, faults = self.record("window", [program, "window", pool])
        self.is_text("a window by claims", trace, FORMATTED + CLAIMED)
        told = "events before the window: 1; events after the window: 1" in faults
        self.expect("a window by claims: told", told, faults)
        trace, _, _, faults = self.record("functions", [program, pool], "--start-after", "formatted", "--stop-at", "finish")
        self.is_text("a window by functions", trace, FORMATTED + CLAIMED)
        self.expect("a window by functions: told", told, faults)
        self.is_cut("a window that was closed", trace, f"{(FORMATTED + CLAIMED).count(chr(10))} the window was closed here, and events came after it\n")
        words = ["--persist", "save", "--persist=save_by_length:2,1", "--persist", "save_or_leave:1,2"]
        trace, _, _, faults = self.record("persist", [program, pool], *words)
        self.is_text("--persist", trace, WATCHED)
        self.expect("--persist: told", "calls of a named function that did not return: 1" in faults, faults)
        faults = self.record("uncalled", [program, pool], "--persist", "no_such")[3]
        self.expect("a function that is not called", "the function no_such was never called by that name" in faults, faults)

    def test_requests_of_pmdk(self):
        program, pool = self.build("pmdk"), self.folder / "pmdk.pool"
        ignore = self.folder / "pmdk.trace.ignore"
        _, _, told, _ = self.record("pmdk", [program, pool])
        self.expect("without --pmdk", (told, ignore.exists()) == ("0 0 0\n", False), told)
        trace, _, told, faults = self.record("pmdk", [program, pool], "--pmdk")
        self.expect("--pmdk answers", told == "1 2 1\n", told)
        self.expect("--pmdk", text_of(ignore) == "0x40:24\n0x100:8\n0x400:8\n", text_of(ignore))
        self.expect("--pmdk: what was freed", "1 range of that kind was freed or used again, and is not ignored\n" in faults, faults)
        self.expect("--pmdk: the next command", f"--ignore-file {ignore} {trace}\n" in faults, faults)
        words = [f"--ignore {line}" for line in text_of(ignore).splitlines()]
        told = run([self.program, "explain", "--json", *" ".join(words).split(), trace]).out
        counts = json.loads(told.splitlines()[0])
        self.expect_equal("what is not ignored", (counts["never_persisted"], counts["stores"]), (2, 6))

    # Ends

    def test_what_came_before_the_end_is_written(self):
        program, pool = self.build("ends"), self.folder / "ends.pool"
        for case, wanted in (("saves", 3), ("exit", 4), ("abort", -signal.SIGABRT), ("segfault", -signal.SIGSEGV), ("avx512", -signal.SIGILL)):
            (self.folder / f"{case}.trace.cut").write_text("5 the disk was full\n")
            trace, status, _, faults = self.record(case, [program, case, pool])
            self.is_cut(case, trace, None)
            self.expect(case, (text_of(trace), status) == (saved([0]), wanted), f"{status} {faults}")
            next_words = f"next: pmtrim explain --labels {trace}.labels {trace}"
            self.expect(f"{case}: the next command", f"pmtrim-record: 3 events of 1 thread in {trace}; {next_words}\n" in faults, faults)
            unknown = re.search(r"an AVX-512 instruction that Valgrind does not know \(bytes 62 f1 7c 48 11 07\) at ends.c:\d+: .*-march=", faults)
            self.expect(f"{case}: unknown instructions", (unknown is not None) == (case == "avx512"), faults)

    def test_events_are_counted(self):
        program, pool = self.build("ends"), self.folder / "ends.pool"
        for events, told in (("1-1", "1 event of 1 thread"), ("1-4", "4 events of 2 threads")):
            trace, _, _, faults = self.record("counts", [program, "threads", pool], "--events", events, accepted=False)
            switches = ", 1 switch between threads" if events == "1-4" else ""
            counted = re.search(re.escape(f"pmtrim-record: {told} in {trace}{switches}") + "(, turns ended before .*)?; not recorded: ", faults)
            self.expect(f"the events {events}, counted", counted is not None, faults)

    def test_killed_at_any_moment(self):
        """At any moment: the trace is a true beginning, and has all that came before the last fence."""
        program, pool = self.build("ends"), self.folder / "ends.pool"
        for death in (signal.SIGTERM, signal.SIGINT, signal.SIGKILL, signal.SIGKILL, signal.SIGKILL):
            pool.unlink(missing_ok=True)
            trace = self.folder / "killed.trace"
            words = [RECORD, "--trace", trace, program, "waits", pool]
            with subprocess.Popen(words, preexec_fn=unignore, stdout=subprocess.PIPE, stderr=subprocess.DEVNULL) as running:
                begun = running.stdout.readline() != b"" and wait_until(lambda: any(pool.read_bytes()[8 * 1000 : 8 * 1008]))
                self.expect(f"killed by {death.name}: it stores", begun, "it does not")
                status = ended_by(death, running)
            self.report(trace)
            text, numbers = text_of(trace), range(1, len(events_of(trace)) // 3 + 1)
            whole = saved([0]) + "".join(saved_value(number % 4000 + 1, number) for number in numbers)
            self.expect(f"killed by {death.name}", status == -death and whole.startswith(text) and len(text) > 40000, f"{status} {len(text)}")
            last = bytearray(pool.read_bytes())
            missing = sum(one != other for one, other in zip(rebuilt(trace, bytes(len(last))), last))
            self.expect(f"killed by {death.name}: nothing is missing", missing <= (8 if death == signal.SIGKILL else 0), missing)

    def test_children(self):
        program, pool = self.build("ends"), self.folder / "ends.pool"
        for case, own, others in (("fork", [0, 16], [[8]]), ("exec", [0, 16], [[8], [0]]), ("becomes", [0], [[0]])):
            folder = self.folder / f"children.{case}"
            folder.mkdir()
            trace, status, _, faults = self.record(f"children.{case}/run", [program, case, pool], "--trace-children", "yes")
            found = sorted(text_of(path) for path in folder.iterdir() if re.fullmatch(r"run\.trace(\.\d+)+", path.name))
            self.expect(f"{case}: its own trace", text_of(trace) == saved(own), text_of(trace))
            self.expect(f"{case}: its children's", found == sorted(saved(words) for words in others), f"{found} {faults}")
            trace, _, _, faults = self.record(f"alone.{case}", [program, case, pool])
            self.expect(f"{case}: alone", text_of(trace) == saved(own), text_of(trace))
            self.is_cut(f"{case}: alone", trace, "3 the program became another one here\n" if case == "becomes" else None)
            told = "becomes another one, which is not recorded" if case == "becomes" else "child processes (--trace-children yes records them): 1"
            self.expect(f"{case}: told", told in faults, faults)
            unseen = "3 events of a child process are not recorded" in faults
            self.expect(f"{case}: what the child does is told", unseen == (case != "becomes"), faults)

    def test_where_a_trace_is_full(self):
        program, pool = self.build("ends"), self.folder / "ends.pool"
        trace, status, _, faults = self.record("threads", [program, "threads", pool])
        numbers = [int(fields[1]) for fields in events_of(trace)]
        wanted = [0, *(number // 2 for number in range(512))]
        self.expect("the 257th thread", status == 0 and numbers == wanted, numbers[-5:])
        told = f"{trace}: the trace ends after event 513: a trace has at most 256 threads at one time, and here is the 257th\n" in faults
        self.expect("the 257th thread: told", told and "events after the end of the trace: 88" in faults, faults)
        self.is_cut("the 257th thread", trace, "513 a trace has at most 256 threads at one time, and here is the 257th\n")
        trace, status, _, faults = self.record("events", [program, "events", pool], "--labels", "no")
        self.expect("a million events", status == 0 and text_of(trace).count("\n") == 1000001, text_of(trace).count("\n"))
        told = f"{trace}: the trace ends after event 1000000: a trace has at most 1000000 events\npmtrim-record: --parts records a run of any length\n" in faults
        self.expect("a million events: told", told and "events after the end of the trace: 24003" in faults, faults)
        self.is_cut("a million events", trace, "1000000 a trace has at most 1000000 events\n")
        limit = lambda: resource.setrlimit(resource.RLIMIT_FSIZE, (100000, 100000))
        trace, status, _, faults = self.record("disk", [program, "events", pool], preexec_fn=limit, restore_signals=False)
        ended = re.search(r"the trace ends after event (\d+): File too large", faults)
        whole = "pmtrace 2 64\nstore 0 0x0 0100000000000000\nclwb 0 0x0\nsfence 0\n"
        right = ended and int(ended[1]) == text_of(trace).count("\n") - 1 and text_of(trace).startswith(whole)
        self.expect("a full disk", right and len(text_of(trace)) > 99000, faults)
        self.is_cut("a full disk", trace, f"{ended and ended[1]} File too large\n")
        for place, reason in (("/dev/full", "No space left on device"), (self.folder / "none/trace", "No such file or directory")):
            _, _, faults = run([RECORD, "--trace", place, "--labels", "no", program, "saves", pool])
            self.expect(f"a trace at {place}", reason in faults and "1844674" not in faults, faults)

    def test_a_long_run_in_parts(self):
        """A run of 1,050,003 events, in parts: all events are answered for, each by one part, and the last labels are those of the last events."""
        program, pool, trace = self.build("ends"), self.folder / "ends.pool", self.folder / "long.trace"
        trace.with_name("long.trace.ignore").write_text("0x40:8\n")
        status, _, faults = run([RECORD, "--parts", "--trace", trace, program, "long", pool])
        self.expect("a run in parts", status == 0 and "parts 2 events 1050003 aside 0" in faults and not trace.exists(), f"{status} {faults}")
        beside = [trace.with_name(f"long.{number:04}.trace") for number in (1, 2)]
        answers = [next(line.split()[1:] for line in text_of(part.with_name(f"{part.name}.part")).splitlines() if line.startswith("answers ")) for part in beside]
        firsts, lasts = zip(*((int(first), int(last)) for first, last in answers))
        self.expect("each event is answered for once", firsts == (1, lasts[0] + 1) and lasts[1] == 1050003, answers)
        cuts = [(part.with_name(f"{part.name}.cut").exists(), text_of(part.with_name(f"{part.name}.ignore"))) for part in beside]
        self.expect("what stands beside them", cuts == [(True, "0x40:8\n"), (False, "0x40:8\n")] and not list(self.folder.glob("long.trace*")), cuts)
        for part in beside:
            status, report = self.report(part)
            labels = text_of(part.with_name(f"{part.name}.labels")).splitlines()
            last = text_of(part).count("\n") - 1
            self.expect(f"{part.name}: labels", labels[-1].startswith(f"{last} ends.c:"), labels[-1])
        self.expect("all is saved by the end", status == 0 and "never-persisted" not in report, report[:200])
        status, _, faults = run([RECORD, "--parts", "--trace", trace, program, "events", pool])
        right = status == 2 and trace.exists() and "--ignore 0x0:64 leaves them out" in faults and f"pmtrim parts --out {trace.with_suffix('')}" in faults
        self.expect("stores that are never flushed", right, f"{status} {faults}")

    # Labels

    def test_labels_name_lines_and_callers(self):
        program, pool = self.build("lines"), self.folder / "lines.pool"
        trace, wanted = self.labelled("lines", program, LABELS)
        self.record("callers", [program, pool], "--callers", 0)
        found = {text.split(" ", 1)[1] for text in text_of(self.folder / "callers.trace.labels").splitlines()}
        self.expect("labels without callers", found == {" ".join(label.split(" ")[:2]) for label in wanted}, found)
        self.record("unlabelled", [program, pool], "--labels", "no")
        self.expect("no labels", not (self.folder / "unlabelled.trace.labels").exists(), "there are some")
        for name, flags, wanted in (("functions", ["-g0"], "insert"), ("stripped", ["-g0", "-s"], "nolines.stripped+0x")):
            program = self.build(f"nolines.{name}", *flags, source=SOURCES / "lines.c")
            same = self.record(f"nolines.{name}", [program, pool])[0]
            self.expect(f"{name}: the same trace", text_of(same) == text_of(trace), text_of(same))
            labels = text_of(same.with_name(f"{same.name}.labels")).splitlines()
            right = len(labels) == len(events_of(same)) and labels[0].startswith(f"1 {wanted}")
            self.expect(f"{name}: labels", right, labels[:2])
        self.labelled("first", self.build("first"), FIRST_LABELS)

    def test_labels_of_inlined_functions(self):
        """A store, a flush and a fence have the line that asks for them. What a header of the system inlines has its caller's."""
        self.labelled("inlined", self.build("inlined"), INLINED_LABELS)
        fortified = self.build("lines.fortified", "-D_FORTIFY_SOURCE=2", "-Wno-unused-result", source=SOURCES / "lines.c")
        self.labelled("lines", fortified, LABELS)

    def labelled(self, name, program, chains):
        """A program's trace, and its labels, in which lines are told by the comments that stand there."""
        source = (SOURCES / f"{name}.c").read_text().splitlines()
        line = lambda what: next(f"{name}.c:{number}" for number, text in enumerate(source, 1) if f"/* {what} */" in text)
        trace = self.record(name, [program, self.folder / f"{name}.pool"])[0]
        found = list(dict.fromkeys(text.split(" ", 1)[1] for text in text_of(trace.with_name(f"{name}.trace.labels")).splitlines()))
        wanted = [f"{line(what)} " + re.sub(r"\{(.*?)\}", lambda call: line(call[1]), chain) for what, chain in chains]
        self.expect(f"labels of {name}", found == wanted, found)
        return trace, wanted

    # Examples

    def test_examples_as_pmtrace_records_them(self):
        """The recorders' examples, unmodified, with a header whose calls are instructions: the verdicts, and pmtrace.h's trace."""
        for name in ("list", "log"):
            source = TOP / f"recorders/examples/{name}.c"
            for wrong in (False, True):
                what = f"{name}{'.wrong' if wrong else ''}"
                built = self.build(what, "-I", SOURCES / "real", *["-DWRONG"] * wrong, source=source)
                trace = self.record(what, [built], cwd=self.folder)[0]
                status, report = self.report(trace)
                failed = re.findall(r"^ordered \d+ fail$", report, re.M)
                self.expect(f"{what}: its claims", status == wrong and bool(failed) == wrong and "ordered " in report, report[-200:])
        built = self.build("list.pmtrace", "-I", TOP / "recorders/c", source=TOP / "recorders/examples/list.c")
        self.expect("list with pmtrace.h", run([built], cwd=self.folder)[0] == 0, "it fails")
        (self.folder / "list.trace").rename(self.folder / "pmtrace.trace")
        trace = self.record("list.again", [self.builds / "list"], cwd=self.folder)[0]
        same = text_of(trace) == text_of(self.folder / "pmtrace.trace")
        self.expect("pmtrace.h writes the same of list", same and len(events_of(trace)) > 10000, "it differs")

    # Words

    def test_words(self):
        program, pool = self.build("ends"), self.folder / "words.pool"
        for words, wanted in (
            (["--frob", "1", program], "there is no option --frob"),
            ([], "no program is given"),
            (["--seeds", "none", program], "--seeds takes a number"),
            (["--pool"], "--pool takes a word"),
        ):
            status, _, told = run([RECORD, *words])
            self.expect(f"words {words[:1]}", status == 2 and wanted in told, f"{status} {told}")
        status, _, told = run([RECORD, "--persist", "save:0,1", program, "saves", pool], cwd=self.folder)
        self.expect("--persist of no argument", status == 2 and "numbers of arguments from 1 to 6" in told, told)
        status, _, told = run([RECORD, "--pool=", program])
        self.expect("--pool of no name", status == 2 and "--pool takes a name" in told, told)
        told = run([RECORD, "--help"])[1]
        self.expect("help", "--locked-fences" in told and "Intel SDM" in told, told)
        _, _, told = run([RECORD, "--trace", self.folder / "none.trace", "--pool", self.folder / "other", program, "saves", pool])
        why = f"no file counts as a pool: {pool} was mapped (see --pool)\n"
        self.expect("no pool", why in told, told)
        self.is_cut("no pool", self.folder / "none.trace", f"0 {why}")

    def test_yes_or_no(self):
        shown = re.findall(r"^  (--[a-z-]+)(\[=yes\|no\]| yes\|no)", run([RECORD, "--help"])[1], re.M)
        self.expect("options that take yes or no", len(shown) == 11, shown)
        for name, word in shown:
            bare = word.startswith("[")
            for words, wanted, fault in (
                ([name, "yes", "true"], 2 if bare else 0, f"write {name}=yes and not {name} yes" if bare else ""),
                ([name, "true"], 0 if bare else 2, "" if bare else f"{name} takes yes or no, not true"),
                ([f"{name}=no", "true"], 0, ""),
                ([f"{name}=on", "true"], 2, f"{name} takes yes or no, not on"),
            ):
                status, _, told = run([RECORD, "--trace", self.folder / "words.trace", *words])
                self.expect(f"{' '.join(words)}, as the help has it", status == wanted and fault in told, f"{status} {told}")

    def test_runs_where_it_is_installed(self):
        """Below another folder it finds its tool, and needs neither root nor this one."""
        prefix = self.folder / "prefix"
        words = {"bin": ["pmtrim-record"], "libexec/pmtrim-record": ["out/pmtrim_record-amd64-linux", "out/vgpreload_core-amd64-linux.so"]}
        for place, names in words.items():
            (prefix / place).mkdir(parents=True)
            for name in names:
                shutil.copy(FOLDER / name, prefix / place, follow_symlinks=False)
        trace, program = self.folder / "installed.trace", self.build("ends")
        status, _, told = run([prefix / "bin/pmtrim-record", "--trace", trace, program, "saves", self.folder / "installed.pool"])
        self.expect("installed elsewhere", (status, text_of(trace)) == (3, saved([0])), told)

    def test_page_shows_what_is_written(self):
        """The commands that recorders/valgrind/README.md shows."""
        expect_shown(self, "recorders/valgrind/README.md")
