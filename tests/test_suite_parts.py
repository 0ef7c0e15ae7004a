"""pmtrim-suite over runs in parts: causes and counts are those of the same run whole, and what no part tells is told."""
import pathlib
import random
import re
from functools import partial

from checks import Checks
from needs import need_recorder
from program import TOP
from running import run
from suites import KNOWN_BUGS, Programs, counting_pmtrim, put_save, report_of, rows_of, suite
from test_parts import long_trace, parts_at, text_of

TRACES = 24
KINDS = ("failure", "never_persisted", "overwritten", "unwritten", "dropped")
UNKNOWN = {"dropped": "whether (?:it does|they do) nothing", "unwritten": "whether (?:its|their) bytes were ever stored"}


def random_labels(choose, trace):
    """Labels of most events, of a few places with callers."""
    labelled = [number for number in trace.numbers if choose.random() < 0.8]
    return "".join(f"{number} s.c:{choose.randrange(5)} f{choose.randrange(3)} < main m.c:{choose.randrange(9)}\n" for number in labelled)


def put_parts(program, folder, header, events, labels, words):
    """The run whole, and beside it in parts; answers the parts, none where too much is carried."""
    for name in ("whole", "parts"):
        (folder / name).mkdir(parents=True, exist_ok=True)
    trace = folder / "whole/run.trace"
    trace.write_bytes(text_of(header, events))
    trace.with_name("run.trace.labels").write_text(labels)
    for path in (folder / "parts").iterdir():
        path.unlink()
    done = run([program, "parts", *words, "--labels", f"{trace}.labels", "--out", folder / "parts/run", trace])
    return parts_at(folder / "parts/run") if done.status == 0 else []


def without_aside(events, parts):
    """The events, where each assertion that a part sets aside claims of its first range alone that it is saved: so none is set aside."""
    aside = {whole for part in parts for _, whole in part.aside}
    return [("isPersist", *event[1:4]) if number in aside else event for number, event in enumerate(events, 1)]


def causes_of(folder, kind):
    found = [cause for cause in report_of(folder)["causes"] if cause["kind"] == kind]
    return {cause["id"]: (cause["reason"], cause["names"], cause["count"], cause["of"]) for cause in found}


def unknown_of(folder, kind):
    """How many findings of a kind the parts do not tell, as the report says."""
    told = report_of(folder)["runs"][0]["aside"] or ""
    found = re.search(rf"([0-9,]+) \w+ {UNKNOWN[kind]}", told)
    return int(found[1]) if found else 0


def compared(folder):
    """Complaints: the report on the parts has other causes or counts than that on the whole."""
    (whole,), (parts,) = (report_of(folder / name)["runs"] for name in ("whole", "parts"))
    complaints = [f"{word}: {parts[word]}, wanted {whole[word]}" for word in ("events", "claims") if parts[word] != whole[word]]
    for kind in KINDS:
        wanted, came = (causes_of(folder / name, kind) for name in ("whole", "parts"))
        unknown = unknown_of(folder / "parts", kind) if kind in UNKNOWN else 0
        missing = sum(cause[2] for cause in wanted.values()) - sum(cause[2] for cause in came.values())
        is_within = all(ident in wanted and came[ident][2] <= wanted[ident][2] for ident in came) and missing <= unknown
        if wanted != came and not (unknown and is_within):
            complaints.append(f"{kind}: {came}, wanted {wanted}, {unknown} not told")
    return complaints


def random_run(program, folder, number):
    """Complaints of one random run; None where its carry is too large for parts."""
    choose = random.Random(f"suite in parts {number}")
    header, trace = long_trace(choose)
    labels, events = random_labels(choose, trace), trace.events
    words = ["--events", str(choose.choice((16, 20, 24))), "--overlap", str(choose.choice((0, 3, 6)))]
    parts = put_parts(program, folder, header, events, labels, words)
    if parts:
        parts = put_parts(program, folder, header, without_aside(events, parts), labels, words)
    if not parts:
        return []
    for name in ("whole", "parts"):
        told = suite("report", folder / name, "--jobs", "1")
        if told.status not in (0, 1):
            return [f"{name}: {told}"]
    return compared(folder)


class Parts(Checks):
    """Reports on runs in parts."""

    def test_random_runs(self):
        folder = self.new_folder()
        self.expect_of_all([(f"run {number}", partial(random_run, self.program, folder / str(number), number)) for number in range(TRACES)])
        counts = [report_of(path / "parts") for path in folder.iterdir() if (path / "parts/report.json").exists()]
        kinds = [cause["kind"] for report in counts for cause in report["causes"]]
        self.expect("runs of several parts", sum(report["runs"][0]["parts"] > 1 for report in counts) > TRACES // 2, [report["runs"] for report in counts])
        self.expect("all kinds came", all(kinds.count(kind) >= 5 for kind in KINDS), {kind: kinds.count(kind) for kind in KINDS})

    def saves(self, folder, rounds, *words):
        """A run whose one fence saves a record and its mark, again and again, as parts."""
        whole = put_save(folder / "whole")
        events, labels = ((whole / name).read_text().splitlines() for name in ("trace", "trace.labels"))
        (folder / "runs/save").mkdir(parents=True)
        (folder / "long.labels").write_text("".join(f"{number} {label.split(' ', 1)[1]}\n" for number, label in enumerate(labels * rounds, 1)))
        (folder / "long").write_text("\n".join([events[0], *events[1:] * rounds, ""]))
        done = run([self.program, "parts", *words, "--labels", folder / "long.labels", "--out", folder / "runs/save/trace", folder / "long"])
        self.expect("it is cut", done.status == 0, done)
        return folder / "runs"

    def test_told(self):
        """What a person sees: one run, how many parts, a command that shows a cause in its part, and what is set aside."""
        runs = self.saves(self.new_folder(), 10, "--events", "20", "--overlap", "7")
        told = suite("report", runs)
        self.expect("the first line", told.out.startswith("1 run of 1 program in 6 parts, 70 events: 2 causes, 2 new\n"), told.out)
        self.expect("how often", "10 times, in 1 of 1 run: save\n" in told.out and "1 of 10 stores, in 1 of 1 run: save\n" in told.out, told.out)
        shown = [line.split("show it")[1].split() for line in told.out.splitlines() if "show it" in line]
        self.expect_equal("in which part", [pathlib.Path(words[-1]).name for words in shown], ["trace.0001.trace", "trace.0006.trace"])
        for words, wanted in zip(shown, ("isOrderedBefore", "touch")):
            answer = run([self.program, *words[1:]])
            self.expect(f"{words}", answer.status in (0, 1) and wanted in answer.out, answer)
        # events 45, 46, 66 and 67, by which parts 3 and 5 end
        self.expect("what parts do not tell", "aside: save: its parts do not tell of 4 flushes whether they do nothing, which stores are saved late, what hints there are\n" in rows_of(told.out), told.out)
        again = suite("report", runs)
        self.expect("no part is explained again", "1 run unchanged since the last report" in again.out.splitlines()[0], again.out)

    def test_unchanged(self):
        """Of a run whose last part changed that one alone is explained again; and a page is of the part."""
        runs = self.saves(self.new_folder(), 10, "--events", "20", "--overlap", "7")
        folder = self.new_folder()
        program, calls = counting_pmtrim(folder)
        known = {"PMTRIM": str(program)}
        suite("report", runs, known=known)
        calls.write_text("")
        path = runs / "save/trace.0006.trace"
        path.write_text(path.read_text().replace("6162636465666769", "6162636465666760"))
        suite("report", runs, "--html", folder / "pages", known=known)
        self.expect_equal("which is explained", {pathlib.Path(line.split()[-1]).name for line in calls.read_text().splitlines() if "--json" in line}, {"trace.0006.trace"})
        names = {path.name for path in (folder / "pages").iterdir()}
        self.expect_equal("pages", names, {"index.html", "run-save_2f_trace.0001.trace.html", "run-save_2f_trace.0006.trace.html"})
        index = (folder / "pages/index.html").read_text()
        self.expect("links", all(f'href="{name}' in index for name in names if name != "index.html"), index)

    def test_refused(self):
        """A part that is missing, or of another run; a part alone; and a run that ends before its last part."""
        runs = self.saves(self.new_folder(), 10, "--events", "20", "--overlap", "7")
        second, last = (runs / f"save/trace.{number:04}.trace" for number in (2, 6))
        beside = pathlib.Path(f"{second}.part")
        text = beside.read_text()
        for name, changed in (("nonsense", "part x\n"), ("another number", text.replace("part 2", "part 3")), ("other events", text.replace("answers ", "answers 1"))):
            beside.write_text(changed)
            told = suite("report", runs)
            self.expect(name, told.status == 3 and "not judged: save: " in told.out and (str(second) in told.out or "trace.0003" in told.out), told)
        beside.write_text(text)
        for path in runs.glob(f"save/{last.name}*"):
            path.unlink()
        told = suite("report", runs)
        self.expect("the end is missing", told.status == 1 and "cut: save: the trace was cut after event 20: the run goes on in part 6" in told.out and "never_persisted" not in told.out, told)
        for path in runs.glob(f"save/{second.name}*"):
            path.unlink()
        told = suite("report", runs)
        self.expect("one is missing", told.status == 3 and "trace.0003.trace: the part before it is missing, or is of another run" in rows_of(told.out), told)

    def test_recorded_by_itself(self):
        """One bug and more events than a trace has: the run in parts has the cause and the count of a short run, and a base for its first part."""
        programs = Programs(self.new_folder())
        for name, rounds in (("short", 2), ("long", 150_000)):
            body = [f"    for (int round = 0; round < {rounds}; round++) {{", *KNOWN_BUGS["one_fence"], "    }"]
            programs.add(name, body)
        told = suite("record", "runs", "--own", "--parts", "--", *programs.script(), known={"PMTRACE_BASE": "1"}, cwd=programs.folder)
        self.expect("two runs", told.status == 0 and "2 runs in runs" in told.err, told)
        told = suite("report", "runs", cwd=programs.folder)
        report = report_of(programs.folder / "runs")
        runs = {run["name"]: (run["parts"], run["events"] // run["claims"], run["claims"]) for run in report["runs"]}
        self.expect_equal("how long they are", runs, {"short-1": (0, 13, 2), "long-1": (3, 13, 150_000)})
        failures = sorted((cause["reason"], cause["names"][0], cause["runs"]) for cause in report["causes"] if cause["kind"] == "failure")
        self.expect_equal("each claim fails, by one cause", failures, [("isOrderedBefore unflushed", f"{name}.c:{name}_save", {f"{name}-1": count}) for name, count in (("long", 150_000), ("short", 2))])
        told = run([TOP / "replay/pmtrim-replay", "--base", "runs/long-1/trace.0003.trace"], {"PMTRIM": self.program}, cwd=programs.folder)
        self.expect("the base of a part", told.status == 0 and (programs.folder / "runs/long-1/trace.0003.trace.base").stat().st_size == 2 * 128, told)

    def test_recorded(self):
        """A program that makes more events than a trace has: it is recorded in parts, and reported as one run beside a clean one."""
        need_recorder()
        folder = self.new_folder()
        (folder / "ends.c").write_text((TOP / "tests/recorders/valgrind/ends.c").read_text())
        built = run(["gcc", "-g", "-O1", "-mclwb", "-I", TOP / "recorders/valgrind", "ends.c", "-o", "ends"], cwd=folder)
        self.expect("the program is built", built.status == 0, built)
        told = suite("record", "runs", "--parts", "--", "./ends", "long", "pool", cwd=folder)
        self.expect("it is recorded", told.status == 0 and "1 run in runs" in told.err, told)
        names = sorted(path.name for path in (folder / "runs/ends-1").iterdir())
        parts = [f"trace.{number:04}.trace{ending}" for number in (1, 2) for ending in ("", ".cut", ".labels", ".part") if number == 1 or ending != ".cut"]
        self.expect_equal("its files", [name for name in names if name.startswith("trace.0")], parts)
        told = suite("report", "runs", cwd=folder)
        self.expect("the report", told.status == 0 and told.out.startswith("1 run of 1 program in 2 parts, 1,050,003 events: 0 causes, 0 new\n"), told)
