"""Makes images of crashes, and runs a checker on each."""
import concurrent.futures
import os
import pathlib
import shlex
import shutil
import signal
import sys
import tempfile
import threading
import time

from checks import Checker
from commands import Commands, ImageMaker
from faults import DISAGREEMENT, FILE_FAULT, WRONG_WORDS, Fault, of_file
from foreseen import Memory
from parts import make_base
from pools import check_stores, find_pools
from processes import Ended, Processes, Stopped
from programs import find_pmtrim
from progress import Progress
from results import KeptResults, Results, identity_of, remove_tree
from screen import shown
from telling import Texts, summary, table, told_of
from trace import Trace
from words import HELP, part_asked, take_words

VERSION = "pmtrim-replay 1.0.0"
KEPT_IMAGES = 20


class Counts:
    """How many crashes were taken, of how many different images; how many of these were run now, were known, and failed."""

    crashes = images = run = known = failed = 0

    def told(self, place, last):
        return f"place {place} of {last}: {self.images} images, {self.run} run, {self.failed} failed"


def check_is_there(path):
    """The file can be opened, which pmtrim tells of without its name."""
    try:
        with open(path, "rb"):
            pass
    except OSError as error:
        raise of_file(path, error) from error


class Replay:
    """A run over all images."""

    def __init__(self, options, here, folder, processes):
        self.options = options
        self.folder = folder
        self.processes = processes
        self.commands = Commands(find_pmtrim(here), options.trace, self.processes)
        check_is_there(options.trace)
        self.commands.fronts(0, 1)
        self.trace = Trace(options.trace)
        self.held = self.trace.lines_held(options.hold)
        self.pools = find_pools(options.trace)
        check_stores(self.pools, self.trace)
        self.last = max(last for _, last in options.at) if options.at else len(self.trace.lines)
        self.places = 0
        self.counts = Counts()
        self.results = Results()
        self.kept = pathlib.Path(options.keep).absolute() if options.keep else None
        self.failures = {}
        self.texts = Texts()
        self.reached = 0
        self.lock = threading.Lock()
        self.fault = None

    def prepare(self):
        """Opens the results, and makes room for images."""
        if self.kept:
            self.results = KeptResults(self.kept, identity_of(self.options, self.pools))
            remove_tree(self.kept / "work")
            self.folder = self.kept / "work"
            self.folder.mkdir()
        self.maker = ImageMaker(self.commands, self.trace, self.pools, self.folder)
        self.checker = Checker(self.options.checker, self.options.seconds, max(pool.size for pool in self.pools), self.processes)

    def run(self):
        """Takes all crashes, and runs the checker on each image that is new."""
        progress = Progress("pmtrim-replay")
        seen, room = set(), threading.BoundedSemaphore(2 * self.options.jobs)
        with concurrent.futures.ThreadPoolExecutor(self.options.jobs) as workers:
            try:
                for crash, memory in self.crashes():
                    self.counts.crashes += 1
                    self.reached = crash.place
                    name = f"{memory.sum_of(crash):064x}"
                    if name not in seen:
                        seen.add(name)
                        self.counts.images += 1
                        self.take(workers, room, name, crash, memory)
                    progress.tell(self.counts.told(crash.place, self.last))
                while not room_is_whole(room, 2 * self.options.jobs):
                    self.go_on()
                    progress.tell(self.counts.told(self.last, self.last))
            finally:
                progress.clear()
                if sys.exc_info()[0] is not None:
                    self.processes.stop()
        self.go_on()

    def go_on(self):
        """Raises what went wrong in a worker."""
        if self.fault is not None:
            raise self.fault

    def crashes(self):
        """All crashes, place by place, with the memory there."""
        memory, before = Memory(self.trace, self.pools), None
        for crash in self.commands.crashes(self.options.at, self.options.off, self.trace.line_size):
            if crash.place != before:
                memory.go_to(crash.place)
                if before is None or any(self.trace.may_raise(number) for number in range(before + 1, crash.place + 1)):
                    self.set_fronts(memory, crash.place)
                before = crash.place
                self.places += 1
            fronts = {line: memory.open[line][0] for line in self.held & memory.open.keys()}
            if all(fronts.get(line, stores) == stores for line, stores in crash.lines):
                yield crash.holding(fronts), memory

    def set_fronts(self, memory, place):
        bounds = self.commands.fronts(place, self.trace.line_size)
        for line, (_, count) in memory.open.items():
            if bounds.get(line, (0, 0))[1] != count:
                raise Fault(DISAGREEMENT, f"pmtrim fronts {self.trace.path} {place}: another count of stores of a line than that of the trace")
        memory.set_fronts({line: front for line, (front, _) in bounds.items()})

    def take(self, workers, room, name, crash, memory):
        """Hands an image to a worker, unless its result is known."""
        if name in self.results.known:
            with self.lock:
                self.counts.known += 1
                self.note(name, self.results.known[name])
            return
        contents, stores = memory.open_contents(crash), memory.stores_back(crash)
        while not room.acquire(timeout=0.5):
            self.go_on()
        self.go_on()
        workers.submit(self.check, room, name, crash, contents, stores, self.counts.images)

    def made_by(self, crash):
        """The command by which a person makes the image again and runs the checker on it; none of several pools."""
        name = "crash.pool"
        words = ["pmtrim", *self.maker.words(crash, 0, name)], self.checker.words_for([name])
        return " && ".join(map(shlex.join, words)) if len(self.pools) == 1 else ""

    def check(self, room, name, crash, contents, stores, number):
        """Makes an image, runs the checker on it, and notes how that went. What goes wrong is kept for the one who waits."""
        folder = self.folder / str(number)
        try:
            outcome = self.check_in(folder, crash, contents)
            result = {"number": number, "place": crash.place, "failed": outcome.failed, "tail": outcome.tail}
            if outcome.failed:
                result.update(status=outcome.status, made_by=self.made_by(crash), **told_of(self.trace, *stores))
            with self.lock:
                self.counts.run += 1
                self.results.add(name, result)
                self.note(name, result)
            if outcome.failed and self.kept and number <= self.last_kept():
                self.keep_image(crash, folder, number)
        except Stopped:
            pass
        except Exception as error:
            self.fault = self.fault or error
        finally:
            remove_tree(folder)
            room.release()

    def check_in(self, folder, crash, contents):
        try:
            (folder / "tmp").mkdir(parents=True)
        except OSError as error:
            raise of_file(folder, error) from error
        paths = self.maker.make(crash, folder)
        address = self.maker.differs(paths, contents)
        if address is not None:
            words = " ".join(self.maker.words(crash, 0, "crash.pool"))
            raise Fault(DISAGREEMENT, f"the image by `pmtrim {words}` does not hold at {address:#x} what its stores write; please tell the authors")
        return self.checker.run(paths, folder / "tmp")

    def note(self, name, result):
        """Counts a result, and keeps that of a failure for the table."""
        if result["failed"]:
            self.counts.failed += 1
            self.failures[result["number"]] = result
        elif "tail" in result:
            self.texts.add(result)

    def last_kept(self):
        """The number of the last failed image that is kept."""
        with self.lock:
            numbers = sorted(self.failures)
        return numbers[:KEPT_IMAGES][-1]

    def keep_image(self, crash, folder, number):
        """Makes the image anew, since the checker may have written to it, and leaves it in the folder that is kept."""
        for pool, path in enumerate(self.maker.make(crash, folder)):
            shutil.move(path, self.kept / f"image{number}{f'.{pool + 1}' if pool else ''}")

    def stopped_words(self):
        more = "the same words go on" if self.options.keep else "with --keep DIR the same words would go on"
        return f"stopped at place {self.reached} of {self.last}; {more}"

    def tell(self, seconds, stopped=False):
        """The answer, on standard output."""
        lines = [f"{self.trace.path}: {self.stopped_words()}; this is of the images until then"] if stopped else []
        lines += summary(self.trace, self.places, self.options, self.counts, seconds)
        failures = [self.failures[number] for number in sorted(self.failures)]
        lines += ["", *table(self.trace, failures)] if failures else self.texts.rows()
        print(shown(lines, sys.stdout), flush=True)

    def clean_up(self):
        self.results.close()
        remove_tree(self.folder)


def room_is_whole(room, size):
    """Whether all have given their room back; waits a moment for that."""
    taken = 0
    while taken < size and room.acquire(timeout=0.1):
        taken += 1
    for _ in range(taken):
        room.release()
    return taken == size


def run(options, here):
    """Runs all, and answers the status."""
    if shutil.which(options.checker[0]) is None:
        raise Fault(WRONG_WORDS, f"{options.checker[0]}: there is no such program")
    begun = time.monotonic()
    folder = pathlib.Path(tempfile.mkdtemp(prefix="pmtrim-replay-"))
    replay, processes = None, Processes()
    try:
        processes.end_by_signals()
        replay = Replay(options, here, folder, processes)
        replay.prepare()
        replay.run()
        replay.tell(time.monotonic() - begun)
        return 1 if replay.failures else 0
    except Ended:
        if replay is None:
            print(f"{options.trace}: stopped before the first image", flush=True)
        else:
            processes.stop()
            replay.tell(time.monotonic() - begun, stopped=True)
            print(f"pmtrim-replay: {replay.stopped_words()}", file=sys.stderr)
        raise
    finally:
        processes.stop()
        if replay is not None:
            replay.clean_up()
        remove_tree(folder)


def run_base(path, here):
    """Makes the base of a part, and answers the status."""
    processes = Processes()
    try:
        processes.end_by_signals()
        print(make_base(path, here, processes), flush=True)
        return 0
    finally:
        processes.stop()


def silence(stream):
    """What waits for a stream that can't be written goes nowhere, so that the end does not fail once more."""
    os.dup2(os.open(os.devnull, os.O_WRONLY), stream.fileno())


def main(words, here):
    """The program. Answers its status."""
    sys.stdout.reconfigure(errors="backslashreplace")
    try:
        if words in (["--help"], ["--version"]):
            print(HELP if words == ["--help"] else VERSION, flush=True)
            return 0
        part = part_asked(words)
        return run(take_words(words), here) if part is None else run_base(part, here)
    except Fault as fault:
        print(f"pmtrim-replay: {fault}", file=sys.stderr)
        return fault.status
    except MemoryError:
        print("pmtrim-replay: out of memory", file=sys.stderr)
        return 5
    except OSError as error:
        print(f"pmtrim-replay: {error.filename or 'standard output'}: {error.strerror or error}", file=sys.stderr)
        silence(sys.stdout)
        return FILE_FAULT
    except Ended as ended:
        number = ended.args[0]
        signal.signal(number, signal.SIG_DFL)
        signal.raise_signal(number)
        return 128 + number
