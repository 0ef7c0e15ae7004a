"""Records random programs whose every store is known, and judges the traces.

The seeds are those from TRUTH_FIRST (1) on: TRUTH_COUNT (1000) programs in C, a tenth as many in Rust and in Python, and as many of steps
by pmtrim-record (turns.py). A failed program's script, trace and log stay in the folders that are named.
"""
import collections
import concurrent.futures
import itertools
import os
import pathlib
import re
import shutil
import subprocess
import tempfile

from checks import Checks
from effects import NEVER, Refused
from interpreters import build_in_c, build_in_rust, in_python
from judge import Judge
from label_checks import check_labels
from mutations import MUTATIONS, Mutations
from programs import DATA
from records import read_logs, read_memory, read_text
from turns import judged
from valgrind_runs import Recorded

COUNT, FIRST = (int(os.environ.get(name, usual)) for name, usual in (("TRUTH_COUNT", 1000), ("TRUTH_FIRST", 1)))
AT_ONCE = 50
LEAST_SWITCHES = 5  # of a program of steps
BATCH = 12
MUTATED = 10  # of each so many programs one gives false records
ROUNDS = 20  # at most so often 100 programs more are run, since threads meet by chance
DEATHS = {"abort": -6, "fault": -11, "return": 0, "thread_exit": 0, "close": 0}
MUST_SUCCEED = ("open", "close", "watch", "stop", "start", "store", "copy", "move", "within", "fill", "stream", "spawn", "join", "fork")


def status_of(program):
    word, *numbers = program.ending
    if word in ("exit", "quick_exit", "_exit"):
        return numbers[0]
    return -numbers[0] if word == "signal" else DEATHS[word]


def is_told_rightly(program, told):
    """Nothing is told where all is in the trace. At exit other threads may go on storing, or ending."""
    told = re.sub("==[0-9]+==Running thread [0-9]+ was not suspended. False leaks are possible.\n", "", told)
    if program.ending[0] in ("exit", "quick_exit") and len(program.threads) > 1:
        told = re.sub("pmtrace: .*: what comes after the end of the program is not in the trace\n", "", told, count=1)
    if program.tells:
        return told != "" and all(line.startswith("pmtrace: ") for line in told.splitlines())
    return told == ""


def check_answers(program, logs):
    for done in itertools.chain(*logs):
        wanted = (1 << 64) - 1 if done.word == "close" and program.tells else 0
        if done.word in MUST_SUCCEED and done.ended != NEVER and done.answer != wanted:
            raise Refused(f"{done} failed")


class Runner:
    """Runs programs by one interpreter, and judges what they leave in the folder."""

    def __init__(self, pmtrim, interpreter, folder, data):
        self.pmtrim = pmtrim
        self.interpreter = interpreter
        self.folder = folder
        self.data = data

    def run(self, seeds):
        """Of each program: its seed, what is wrong, and of each change of its record its name and whether it was refused."""
        programs = [self.interpreter.make(seed) for seed in seeds]
        status, told = self.execute(programs)
        outcomes = [(program.seed, *self.outcome(program)) for program in programs]
        if status != status_of(programs[-1]) or not is_told_rightly(programs[-1], told):
            outcomes.append((f"{seeds[0]} to {seeds[-1]}", f"status {status}, not {status_of(programs[-1])}: {told[-2000:]}", []))
        return outcomes

    def outcome(self, program):
        try:
            changes = self.judge(program)
        except (Refused, OSError) as fault:
            return str(fault), []
        if all(refused for _, refused in changes):
            self.remove(program)
        return "", changes

    def execute(self, programs):
        script = self.folder / f"{programs[0].seed}.script"
        script.write_text("".join(program.script(self.folder) for program in programs))
        try:
            done = subprocess.run([*self.interpreter.command, self.data, script], capture_output=True, timeout=120)
        except subprocess.TimeoutExpired:
            return "it hangs", ""
        return done.returncode, done.stderr.decode(errors="replace")

    def judge(self, program):
        """Of each change that makes a false record of it: its name, and whether it was refused."""
        name = self.folder / str(program.seed)
        text, logs = read_text(program, name), read_logs(program, name)
        kept = program.goes_on() or not self.interpreter.is_safe()
        record = (program, logs, text, read_memory(program, name) if kept else None)
        check_answers(program, logs)
        judge = Judge(*record)
        judge.judge()
        if program.goes_on() and not self.interpreter.is_safe():
            check_labels(judge, pathlib.Path(f"{name}.trace.labels").read_text())
        done = subprocess.run([self.pmtrim, "check"], input=text.encode(), capture_output=True)
        if done.returncode not in (0, 1):
            raise Refused(f"pmtrim refuses the trace: {done.stderr}")
        if program.seed % MUTATED or program.closes_early or not program.goes_on():
            return []
        return list(Mutations(*record).refused())

    def remove(self, program):
        for path in self.folder.glob(f"{program.seed}.*"):
            if path.suffix != ".script":
                path.unlink()


def shared_out(interpreters, seeds):
    """An interpreter and the seeds that one process of it does: all but the last let it live, and say nothing.

    A program that closes its trace early has races of its own from there on, which a sanitizer would tell of.
    """
    every, plain = itertools.cycle(interpreters), itertools.cycle(one for one in interpreters if not one.sanitized)
    waiting = []
    for seed in seeds:
        waiting.append(seed)
        program = interpreters[0].make(seed)
        if program.closes_early or not program.goes_on():
            yield next(plain), waiting[-3:]
            del waiting[-3:]
        elif len(waiting) == BATCH:
            yield next(every), waiting
            waiting = []
    if waiting:
        yield next(plain), waiting


def run_job(words):
    interpreter, seeds, pmtrim, folder, data = words
    folder = folder / interpreter.name
    folder.mkdir(exist_ok=True)
    return Runner(pmtrim, interpreter, folder, data).run(seeds)


def make_folders():
    """On a disk, and in memory."""
    folders = [pathlib.Path(tempfile.mkdtemp(prefix="truth."))]
    if os.access("/dev/shm", os.W_OK):
        folders.append(pathlib.Path(tempfile.mkdtemp(prefix="truth.", dir="/dev/shm")))
    return folders


class Truth(Checks):
    """Programs with pmtrace.h and with the recorders for Rust and Python, in two folders by turns."""

    def setUp(self):
        self.folders, self.builds = make_folders(), self.new_folder()
        self.data = self.builds / "data"
        self.data.write_bytes(DATA)

    def run_all(self, interpreters, seeds):
        """A check for each program, and for each change of its record; how often each of these was made."""
        jobs = [(*job, self.program, folder, self.data) for job, folder in zip(shared_out(interpreters, seeds), itertools.cycle(self.folders))]
        made, right = collections.Counter(), True
        with concurrent.futures.ProcessPoolExecutor(min(2, len(os.sched_getaffinity(0)))) as workers:
            for (interpreter, *_), outcomes in zip(jobs, workers.map(run_job, jobs)):
                for seed, fault, changes in outcomes:
                    self.expect(f"{interpreter.name}, seed {seed}", not fault, fault)
                    for name, refused in changes:
                        self.expect(f"{interpreter.name}, seed {seed}: {name}", refused, "the judge takes this false record")
                    made.update(name for name, _ in changes)
                    right &= not fault and all(refused for _, refused in changes)
        if not right:
            print("what they left is in", *self.folders)
            self.fail("not all are recorded truly")
        return made

    def end(self):
        for folder in self.folders:
            shutil.rmtree(folder)

    def test_programs_in_c(self):
        """Some runs more give false records until each change was made, since threads meet by chance."""
        interpreters, made = build_in_c(self.builds), collections.Counter()
        made.update(self.run_all(interpreters, range(FIRST, FIRST + COUNT)))
        first = -(-(FIRST + COUNT) // MUTATED) * MUTATED
        changes = [change.__name__ for change in MUTATIONS] if COUNT >= 1000 else []
        for seed in range(first, first + ROUNDS * 100 * MUTATED, 100 * MUTATED):
            if not all(made[change] for change in changes):
                made.update(self.run_all(interpreters, range(seed, seed + 100 * MUTATED, MUTATED)))
        for change in changes:
            self.expect(f"a record was made false by {change}", made[change] > 0, made)
        self.end()

    def test_programs_in_rust(self):
        self.run_all(build_in_rust(self.builds), range(FIRST, FIRST + COUNT // 10))
        self.end()

    def test_programs_in_python(self):
        self.run_all(in_python(self.builds), range(FIRST, FIRST + COUNT // 10))
        self.end()


class Turns(Recorded):
    """Programs of steps by pmtrim-record, whose threads give way."""

    def test_programs_of_steps_that_give_way(self):
        steps, switches = self.build("steps"), 0
        for first in range(FIRST, FIRST + COUNT, AT_ONCE):
            for seed, fault, times in judged(steps, self.program, self.folder, range(first, min(first + AT_ONCE, FIRST + COUNT))):
                self.expect(f"steps, seed {seed}", not fault, fault)
                switches += times
        self.expect("threads give way", switches >= LEAST_SWITCHES * COUNT, switches)
