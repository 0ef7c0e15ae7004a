"""pmtrim-suite: ids that last, reports and what is written of them, baselines, shards, and suites of programs that are recorded."""
import json
import os
import re
import subprocess
import sys
import xml.etree.ElementTree as tree

from checks import Checks
from documents import expect_shown
from needs import need_recorder
from program import TOP
from running import run
from sarif_types import sarif_schema
from schemas import complaints
from suites import CLEAN, KNOWN_BUGS, NEW_BUG, RIGHT, SUITE, Programs, counting_pmtrim, files_in, ids_of, put_run, put_save, report_of, rows_of, suite

sys.path[:0] = [str(TOP / "suite/lib"), str(TOP / "replay/lib")]
from functions import spans_of  # noqa: E402  (the folder is known only now)
from labels import Places  # noqa: E402

SCHEMA = TOP / "tests/oracles/sarif_schema.json"
ACCEPTED = "a cache, made anew at each start"


class Ids(Checks):
    """An id is of kind, reason, files and functions, and of nothing else."""

    def ids_by(self, name, **shifted):
        folder = self.new_folder()
        put_save(folder / name, **shifted)
        self.expect("a cause is new", suite("report", folder).status == 1, name)
        return ids_of(folder)

    def test_lasting(self):
        plain = self.ids_by("a")
        self.expect_equal("two causes", len(plain), 2)
        self.expect_equal("another run, other lines, other addresses", self.ids_by("other/b", line=300, address=0x7F00), plain)
        self.expect_equal("a copy that the compiler made", self.ids_by("a", function="mark.isra.0"), plain)
        self.expect_equal("a whole name below the sources", self.ids_by("a", file=str(TOP / "src/save.c")), plain)
        self.expect_equal("another function of one of them", len(self.ids_by("a", function="seal") & plain), 1)
        self.expect("another file", not self.ids_by("a", file="lib/save.c") & plain)

    def test_merged(self):
        """One bug in three runs is one cause; files of one name stay two."""
        folder = self.new_folder()
        for name, shifted in (("a-1", {}), ("a-2", {"line": 44}), ("b", {"address": 0x9000}), ("c", {"file": "other/save.c"})):
            put_save(folder / name, **shifted)
        told = suite("report", folder)
        self.expect_equal("the first line", told.out.splitlines()[0], "4 runs of 3 programs, 28 events: 4 causes, 4 new")
        causes = [cause for cause in report_of(folder)["causes"] if cause["kind"] == "failure"]
        self.expect_equal("by file", {cause["names"][0]: sorted(cause["runs"]) for cause in causes}, {"src/save.c:save": ["a-1", "a-2", "b"], "other/save.c:save": ["c"]})
        self.expect("how often", "3 times, in 3 of 4 runs: a-1, a-2, b" in told.out, told.out)
        shown = [line.split("show it")[1].split() for line in told.out.splitlines() if "show it" in line]
        answer = run([self.program, *shown[0][1:]])
        self.expect("the command that shows one", answer.status == 1 and "isOrderedBefore" in answer.out, answer)

    def test_places(self):
        places = Places("prog", "/home/me/src", {"a.c:7": "seven"})
        for label, name, line in (
            ("list.c:20 flush < main list.c:31", "list.c:flush", 20),
            ("/home/me/src/lib/x.cpp:3 tree::save<int>(char const*, long) (before the window)", "lib/x.cpp:tree::save<int>(char const*, long)", 3),
            ("a.c:7", "a.c:seven", 7),
            ("a.c:8", "a.c", 8),
            ("/usr/bin/fio+0x1188", "/usr/bin/fio", None),
            ("insert.part.0 < main", "(prog):insert", None),
            ("(0x401136 in a.out)", "(prog):(0x in a.out)", None),
            (None, "(prog)", None),
        ):
            place = places.of(label)
            self.expect_equal(f"{label}", (place.name, place.line), (name, line))

    def test_functions(self):
        """Which function a line of a source stands in."""
        folder = self.new_folder()
        texts = {
            "a.c": 'static int a[] = {1, 2};\n/* f( { */\nint\nfirst(int x)\n{\n    for (int i = 0; i < 3; i++) { x++; }\n    return \'{\';\n}\n#define M(x) {\nstatic void *second(void) {\n    return "}";\n}\n',
            "b.cpp": "namespace n {\nstruct S : T {\n    void save() const {\n        if (x) { y(); }\n    }\n};\nvoid S::load(int a) {\n    z = [](int b) { return b; }(a);\n}\n}\n",
            "c.rs": "impl Pool {\n    fn append<T>(&self, at: usize) -> Result<()> {\n        if at > 3 {\n            x();\n        }\n    }\n}\n",
            "d.py": "import x\n\ndef outer():\n    def inner():\n        pass\n    return inner\n",
        }
        wanted = {"a.c": [(3, 8, "first"), (10, 12, "second")], "b.cpp": [(3, 5, "save"), (7, 9, "S::load")], "c.rs": [(2, 6, "append")], "d.py": [(3, 6, "outer"), (4, 5, "inner")]}
        for name, text in texts.items():
            (folder / name).write_text(text)
            self.expect_equal(name, spans_of(str(folder / name)), wanted[name])
        self.expect_equal("no such source", spans_of(str(folder / "none.c")), [])


class Written(Checks):
    """What a report is written as."""

    def setUp(self):
        self.folder = self.new_folder()
        self.runs = self.folder / "runs"
        put_save(self.runs / "a")
        put_run(self.runs / "plain", ["store 0 0x40 01"])
        put_run(self.runs / "clean", CLEAN)

    def report(self, *words, **options):
        return suite("report", self.runs, *words, cwd=self.folder, **options)

    def sarif(self):
        value = json.loads((self.folder / "s.sarif").read_text())
        self.expect_equal("the schema", self.complaints(json.dumps(value)), [[], []])
        return value["runs"][0]

    def complaints(self, text):
        """What is refused by the schema of what is written, which has the bounds, and by that of all of SARIF."""
        whole = self.new_folder() / "schema.json"
        whole.write_text(sarif_schema())
        return [each for schema in (SCHEMA, whole) for each in complaints(schema, [text])]

    def test_sarif(self):
        self.report("--sarif", "s.sarif")
        results = self.sarif()["results"]
        self.expect_equal("ids", {result["fingerprints"]["pmtrimCause/v1"] for result in results}, ids_of(self.runs))
        failure = results[0]
        place = failure["locations"][0]["physicalLocation"]
        self.expect_equal("where", (place["artifactLocation"]["uri"], place["region"]["startLine"]), ("src/save.c", 15))
        related = {each["message"]["text"].split(":")[0]: each["physicalLocation"]["region"]["startLine"] for each in failure["relatedLocations"]}
        self.expect_equal("events", related, {"claim": 15, "keeps": 12, "loses": 10})
        titles = [result["message"]["text"].partition(". ")[0] for result in results]
        wanted = ["A crash can keep what [src/save.c:12](2) stores without what [src/save.c:10](3) stores", "A crash at the end can lose what event 1 stores", "A crash at the end can lose what [src/save.c:10](1) stores"]
        self.expect_equal("titles", titles, wanted)
        self.expect("what mends each", all(". Fix: " in result["message"]["text"] for result in results), titles)
        unlabelled = next(result for result in results if result["properties"]["places"] == ["(plain)"])["locations"][0]["physicalLocation"]
        self.expect_equal("without a label the line of the trace", (unlabelled["artifactLocation"]["uri"], unlabelled["region"]["startLine"]), (str(self.runs / "plain/trace").replace(str(self.runs), f"file://{self.runs}"), 2))
        told = self.report("--sarif", "-")
        self.expect("standard output has it alone", json.loads(told.out)["runs"][0]["results"] == results and told.err.startswith("3 runs"), told)
        self.expect_equal("the schemas can refuse", self.complaints('{"version": "2.1.0", "runs": [{}]}'), 2 * [["$.runs[0]: 'tool' is a required property"]])

    def test_suppressed(self):
        self.report("--baseline", "known", "--update-baseline")
        text = (self.folder / "known").read_text()
        (self.folder / "known").write_text(text.replace("not judged yet: say why it may stay", ACCEPTED, 1))
        put_save(self.runs / "b", file="new.c")
        self.report("--baseline", "known", "--sarif", "s.sarif")
        run_of = self.sarif()
        told = [(result["baselineState"], [each["justification"] for each in result.get("suppressions", [])]) for result in run_of["results"]]
        self.expect_equal("states", [state for state, _ in told], ["new", "new", "unchanged", "unchanged", "unchanged"])
        self.expect_equal("why", [why for _, why in told if ACCEPTED in why], [[ACCEPTED]])
        self.expect_equal("no justification of what is new", [why for state, why in told if state == "new"], [[], []])

    def test_junit(self):
        put_run(self.runs / "empty", [], cut="0 no event came\n")
        put_run(self.runs / "refused", ["clwb 0 \x01"])
        put_save(self.runs / "b", line=40)
        for name, status in (("fails", "1"), ("dies", "signal SIGABRT"), ("b", "3"), ("clean", "0")):
            if not (self.runs / name).exists():
                put_run(self.runs / name, CLEAN)
            (self.runs / name / "status").write_text(f"{status}\n")
        told = self.report("--junit", "j.xml")
        suites = tree.parse(self.folder / "j.xml").getroot()
        cases = {case.get("name"): [child.tag for child in case if child.tag != "system-out"] for case in suites.iter("testcase")}
        self.expect_equal("cases", cases, {"a": ["failure"], "b": ["failure"], "clean": [], "dies": ["error"], "empty": ["skipped"], "fails": ["error"], "plain": ["failure"], "refused": ["error"]})
        counts = {name: suites[0].get(name) for name in ("tests", "failures", "errors", "skipped")}
        self.expect_equal("counts", counts, {"tests": "8", "failures": "3", "errors": "3", "skipped": "1"})
        ended = {case.get("name"): case[0].get("message") for case in suites.iter("testcase") if case.get("name") in ("fails", "dies")}
        self.expect_equal("how programs failed", ended, {"fails": "the program ended with status 1", "dies": "the program ended by signal SIGABRT"})
        of_b = next(case for case in suites.iter("testcase") if case.get("name") == "b")[0]
        self.expect("by its own events", all(text in of_b.text for text in ("src/save.c:45 save", "runs/b/trace", "  fix ")) and "runs/a/trace" not in of_b.text, of_b.text)
        self.expect("and how it ended", of_b.get("message").endswith("; the program ended with status 3"), of_b.get("message"))
        self.expect("it is told", "not ended well: dies: it ended by signal SIGABRT\n" in told.out, told.out)
        self.expect_equal("the status is that of the refused trace", told.status, 3)

    def test_lines(self):
        """A line for each new cause, as compilers write it, and as GitHub takes it."""
        (ident,) = ids_of(self.runs, "failure") if self.report() else ()
        wanted = "src/save.c:15: error: A crash can keep what src/save.c:12 stores without what src/save.c:10 stores. No flush of the cache line follows the store by then. Fix: "
        told = self.report("--format", "gcc")
        self.expect("gcc", told.status == 1 and told.out.count("\n") == 3 and told.out.startswith(wanted) and told.out.split("\n")[0].endswith(f" [failure {ident}]"), told)
        self.expect("without a label the line of the trace", f"{self.runs}/plain/trace:2: error: A crash at the end can lose what event 1 stores. " in told.out, told)
        put_run(self.runs / "x", ["store 0 0x40 01"], ["a,b%c:d.c:99999999999 f"])
        told = self.report("--format", "github")
        self.expect("github", f"::error file=src/save.c,line=15,title=failure (isOrderedBefore unflushed) {ident}::A crash can keep " in told.out, told)
        self.expect("what GitHub would read, and a line that is no number of one", f"::error file={self.runs}/x/trace,line=2,title=never_persisted" in told.out and "a,b%25c:d.c:f stores" in told.out, told)

    def test_pages(self):
        self.report("--html", "pages")
        index = (self.folder / "pages/index.html").read_text()
        self.expect("failure", 'href="run-a.html#failure=6"' in index and "src/save.c:15 save" in index, index)
        for name in ("run-a.html", "run-plain.html"):
            self.expect(name, "<html" in (self.folder / "pages" / name).read_text())
        self.expect_equal("no page of a run without a cause", {path.name for path in (self.folder / "pages").iterdir()}, {"index.html", "run-a.html", "run-plain.html"})

    def test_whole_or_not(self):
        """A file that can't be written leaves nothing, and a device is written to as it is."""
        before = files_in(self.folder)
        told = self.report("--sarif", "none/s.sarif")
        self.expect("no folder for it", (told.status, told.out) == (4, "") and "none/s.sarif: No such file" in told.err, told)
        (self.folder / "j.xml").mkdir()
        told = self.report("--junit", "j.xml")
        self.expect("a folder of its name", told.status == 4 and "j.xml: Is a directory" in told.err, told)
        left = {path for path in files_in(self.folder) if path not in before and path.parts[0] == "runs"}
        self.expect("nothing else is left", all(path.parts[1] in (".explained", "report.json") for path in left), left)
        told = self.report("--sarif", "/dev/stdout")
        self.expect("standard output", told.status == 1 and '"version": "2.1.0"' in told.out, told)
        with open("/dev/full", "w") as full:
            done = subprocess.run([SUITE, "report", self.runs], stdout=full, stderr=subprocess.PIPE, text=True)
        self.expect("a full disk", (done.returncode, done.stderr) == (4, "pmtrim-suite: standard output: No space left on device\n"), done)


class Baselines(Checks):
    """What is known."""

    def setUp(self):
        self.runs = self.new_folder()
        self.file = self.runs.parent / f"{self.runs.name}.baseline"
        self.addCleanup(lambda: self.file.unlink(missing_ok=True))
        put_save(self.runs / "a")

    def report(self, *words):
        return suite("report", self.runs, "--baseline", self.file, *words)

    def test_round_trip(self):
        told = self.report()
        self.expect("it is not there", told.status == 1 and f"note: there is no {self.file} yet, so nothing is known" in rows_of(told.out), told)
        told = self.report("--update-baseline")
        self.expect("it is made", told.status == 0 and f"2 lines added to {self.file}" in told.out, told)
        text = self.file.read_text()
        told = self.report()
        self.expect("nothing is new", told.status == 0 and told.out.startswith("1 run of 1 program, 7 events: 2 causes, 0 new"), told)
        put_save(self.runs / "b", file="dir with space/#s.c")
        told = self.report("--update-baseline")
        self.expect("two more", told.status == 0 and self.file.read_text().startswith(text), self.file.read_text())
        self.expect_equal("and none", (self.report("--update-baseline").status, self.file.read_text().count("\n")), (0, 3 + 4))

    def test_lines(self):
        for line, new in (
            (f"* failure src/*.c:s?ve # {ACCEPTED}", 1),
            (f"* * src/* # {ACCEPTED}", 0),
            (f"* never_persisted src/save.c:touch # {ACCEPTED}", 1),
            (f"* failure lib/* # {ACCEPTED}", 2),
            (f"000000000000 failure src/save.c:save # {ACCEPTED}", 2),
        ):
            self.file.write_text(f"# why\n\n{line}\n")
            told = self.report()
            self.expect(line, f"2 causes, {new} new" in told.out and told.status == (1 if new else 0), told)
        self.expect("a line of nothing is told", f"{self.file}:3: 000000000000 failure" in told.out, told.out)

    def test_refused(self):
        for line in ("* failure src/*", "0123 failure src/* # why", "* broken src/* # why", "* failure a b # why", "* failure src/* #"):
            self.file.write_text(f"{line}\n")
            told = self.report()
            self.expect(line, told.status == 3 and f"not judged: {self.file}:1: " in told.out and ": 2 causes, 2 new" in told.out, told)
            self.expect("and stays", self.report("--update-baseline").status == 3 and self.file.read_text() == f"{line}\n", line)


class Shares(Checks):
    """Shards, and what is not explained again."""

    def setUp(self):
        self.runs = self.new_folder()
        for number, shifted in enumerate(({}, {"line": 50}, {"file": "x.c"}, {"function": "seal"}, {"address": 0x40})):
            put_save(self.runs / f"run-{number}", **shifted)
        put_run(self.runs / "bad", ["nonsense"])
        (self.runs / "void").mkdir()

    def shard(self, number, of):
        return suite("report", self.runs, "--shard", f"{number}/{of}")

    def test_shards(self):
        whole = suite("report", self.runs, "--jobs", "1")
        text = (self.runs / "report.json").read_bytes()
        parts = [self.shard(number, 3) for number in (1, 2, 3)]
        self.expect("each has a share", all(part.out.startswith(f"shard {number}/3: 2 runs") for number, part in enumerate(parts, 1)), parts)
        paths = [self.runs / f"report-{number}-of-3.json" for number in (3, 1, 2)]
        out = self.new_folder() / "merged.json"
        merged = suite("merge", out, *paths)
        self.expect_equal("the file is that of the whole", out.read_bytes(), text)
        self.expect_equal("and so is the status", (whole.status, merged.status), (4, 4))
        self.expect_equal("and what is told, but for the words to type", merged.out.splitlines()[:-1], whole.out.splitlines()[:-1])

    def test_missing(self):
        self.shard(1, 3), self.shard(2, 3), self.shard(1, 2)
        one, two, other, out = (self.runs / name for name in ("report-1-of-3.json", "report-2-of-3.json", "report-1-of-2.json", "out.json"))
        (self.runs / "old.json").write_text(one.read_text().replace("report 3", "report 0"))
        (self.runs / "none.json").write_text("[]")
        (self.runs / "odd.json").write_text(one.read_text().replace('"kind": "failure"', '"kind": "bug"'))
        for words, line, status in (
            ([one, two], "the report of shard 3/3 is not among those", 4),
            ([one, two, other], "this is shard 1/2, and", 4),
            ([one, two, one], "this is shard 1/3, and so is", 4),
            ([one, self.runs / "old.json"], "this is no report of this version ('pmtrim-suite report 3') but 'pmtrim-suite report 0'", 3),
            ([self.runs / "none.json"], "this is no report of this version", 3),
            ([self.runs / "odd.json"], "this is no report (this is no cause)", 3),
            ([self.runs / "bad/trace"], "this is no report", 3),
            ([self.runs / "no.json"], "No such file", 4),
        ):
            told = suite("merge", out, *words)
            self.expect(line, (told.status, told.out) == (status, "") and line in told.err and not out.exists(), told)

    def test_unchanged(self):
        """A run is explained again where its trace, what stands beside it or the program changed, and not else."""
        program, calls = counting_pmtrim(self.new_folder())
        known = {"PMTRIM": str(program)}

        def explained():
            """Which runs are explained by a report, but for the one that is refused each time."""
            calls.write_text("")
            suite("report", self.runs, known=known)
            return sorted(path.split("/")[-2] for path in calls.read_text().split() if path.endswith("/trace") and "/bad/" not in path)

        names = [f"run-{number}" for number in range(5)]
        self.expect_equal("all at first", explained(), names)
        first = (self.runs / "report.json").read_bytes()
        self.expect_equal("none again", explained(), [])
        self.expect_equal("and the report is the same", (self.runs / "report.json").read_bytes(), first)
        with open(self.runs / "run-2/trace", "a") as file:
            file.write("sfence 0\n")
        self.expect_equal("a trace", explained(), ["run-2"])
        (self.runs / "run-3/trace.ignore").write_text("0x1000:8\n")
        self.expect_equal("ranges beside it", explained(), ["run-3"])
        put_save(self.runs / "run-0", line=99)
        self.expect_equal("labels", explained(), ["run-0"])
        for path in (self.runs / ".explained").iterdir():
            path.write_text("nonsense")
        self.expect_equal("what was kept is damaged", explained(), names)
        program.write_text(program.read_text() + "# another one\n")
        self.expect_equal("the program", explained(), names)
        self.expect_equal("nothing is kept of what is no more", len(list((self.runs / ".explained").iterdir())), 5)


class Suites(Checks):
    """Suites of programs that are recorded."""

    @classmethod
    def setUpClass(cls):
        cls.programs = Programs(cls.shared_folder())

    def record(self, *words):
        return suite("record", "runs", "--own", "--", *words, cwd=self.programs.folder)

    def report(self, *words):
        return suite("report", "runs", *words, cwd=self.programs.folder)

    def test_one_new_bug(self):
        """Ten programs, eight with a known bug and two clean: one new bug fails, for that one alone, also where lines were added."""
        for name, body in {**KNOWN_BUGS, "clean_first": RIGHT, "clean_second": RIGHT}.items():
            self.programs.add(name, body)
        self.record(*self.programs.script())
        told = self.report("--baseline", "known", "--update-baseline")
        self.expect_equal("eight and more are known", told.status, 0)
        known = report_of(self.programs.folder / "runs")
        buggy = {run for cause in known["causes"] if cause["kind"] in ("failure", "never_persisted") for run in cause["runs"]}
        self.expect_equal("each bug is seen, in its program", buggy, {f"{name}-1" for name in KNOWN_BUGS})
        for name, body in KNOWN_BUGS.items():
            self.programs.add(name, body, lines=7)
        self.programs.add("clean_second", NEW_BUG)
        told = self.record(*self.programs.script())
        self.expect("ten runs", told.status == 0 and "10 runs in runs" in told.err, told)
        told = self.report("--baseline", "known", "--junit", "j.xml")
        self.expect("one is new", told.status == 1 and ": 9 causes, 1 new" in told.out.splitlines()[0], told)
        self.expect("it is named", "new: never_persisted (unflushed) at clean_second.c:" in told.out and "clean_second_save" in told.out, told.out)
        failed = [case.get("name") for case in tree.parse(self.programs.folder / "j.xml").getroot().iter("testcase") if case.find("failure") is not None]
        self.expect_equal("it alone fails", failed, ["clean_second-1"])

    def test_processes(self):
        """Each process has its folder, with its command line and how it ended, however it ends."""
        self.programs.add("right", RIGHT)
        body = "    pmtrace_store(pool.mark, 1); {}"
        (self.programs.folder / "ends.h").write_text("#include <signal.h>\n#include <unistd.h>\n")
        for name, end in (("dies", "raise(SIGABRT);"), ("leaves", "_exit(3);"), ("exits", "exit(4);")):
            self.programs.add(name, ['#include "ends.h"', body.format(end)])
        told = self.record("sh", "-c", "./right 'two words'; ./dies; ./leaves; ./right & wait; ./exits")
        self.expect_equal("the status is the command's", told.status, 4)
        runs = self.programs.folder / "runs"
        ends = {name: tuple((runs / name / file).read_text().strip() for file in ("command", "status")) for name in sorted(os.listdir(runs)) if (runs / name).is_dir() and not name.startswith(".")}
        self.expect_equal("how often right ran", sorted(ends[name] for name in ("right-1", "right-2")), [("./right", "0"), ("./right 'two words'", "0")])
        self.expect_equal("by a signal", ends["dies-1"], ("./dies", "signal SIGABRT"))
        self.expect_equal("by _exit", ends["leaves-1"], ("./leaves", "not known: it was killed, or ended by _exit, or became another program"))
        self.expect_equal("by exit", ends["exits-1"], ("./exits", "4"))
        self.expect("no trace is refused", self.report().status == 1)
        told = self.record("./right")
        self.expect("another record takes their place", sorted(name for name in os.listdir(runs) if (runs / name).is_dir()) == [".explained", "right-1"], os.listdir(runs))
        (self.programs.folder / "full").mkdir()
        (self.programs.folder / "full/mine").write_text("")
        told = suite("record", "full", "--own", "--", "./right", cwd=self.programs.folder)
        self.expect("a folder of somebody", told.status == 2 and "there are other files in it, as mine" in told.err, told)

    def test_valgrind(self):
        """Programs as they are: those that map a pool are runs; of one that records itself its own trace is taken."""
        need_recorder()
        page = (TOP / "recorders/valgrind/README.md").read_text()
        (self.programs.folder / "save.c").write_text(page.split("```c save.c\n")[1].split("```")[0])
        self.programs.compile("-g", "-mclwb", "save.c", "-o", "save")
        self.programs.add("right", RIGHT)
        told = suite("record", "runs", "--", "sh", "-c", "./save; ./right; true; sh -c 'exec ./save'; exit 5", cwd=self.programs.folder)
        self.expect("status and last line", told.status == 5 and "3 runs in runs; " in told.err and "mapped no pool; next: pmtrim-suite report runs" in told.err, told)
        self.expect("the recorder is silent", told.err.count("\n") == 1, told.err)
        runs = self.programs.folder / "runs"
        names = sorted(name for name in os.listdir(runs) if (runs / name).is_dir() and name != ".explained")
        self.expect_equal("runs", names, ["right-1", "save-1", "save-2"])
        self.expect_equal("how one ended", [(runs / "save-1" / file).read_text() for file in ("command", "status")], ["./save\n", "0\n"])
        told = self.report()
        self.expect("one bug, in two runs", "3 runs of 2 programs" in told.out and "8 of 32 stores" not in told.out and "16 of 66 stores, in 2 of 3 runs: save-1, save-2" in told.out, told.out)

    def test_workflow(self):
        """The steps of the workflow that docs/SUITE.md shows, but what it installs: they pass where nothing is known, and fail for a new bug."""
        need_recorder()
        page = (TOP / "docs/SUITE.md").read_text().split("```yaml")[1].split("```")[0]
        _, *steps = re.findall(r"^ +(?:- )?run: (.*?)(?: #.*)?$", page.replace("run: >-\n ", "run:").replace("\n          ", " "), re.M)
        known = {"PATH": f"{SUITE.parent}:{os.environ['PATH']}"}
        self.programs.add("right", RIGHT)
        (self.programs.folder / "Makefile").write_text("all:\n\t@true\ncheck:\n\t@./right\n")
        for body, wanted in ((RIGHT, [0, 0, 0]), (NEW_BUG, [0, 0, 1])):
            self.programs.add("right", body)
            told = [run(["sh", "-c", step], known, cwd=self.programs.folder) for step in steps]
            self.expect_equal("statuses", [each.status for each in told], wanted)
        for name in ("new.sarif", "new.xml", "pages/index.html"):
            self.expect(name, (self.programs.folder / name).is_file())

    def test_page(self):
        """The commands of docs/SUITE.md."""
        expect_shown(self, "docs/SUITE.md")
