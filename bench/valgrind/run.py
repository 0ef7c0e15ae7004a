#!/usr/bin/env python3
"""What pmtrim-record costs: bench/valgrind/run.py [ROUNDS [PROFILE]]. Programs, each run plainly, by Valgrind without a tool, recorded by
pmtrace.h, and recorded by pmtrim-record, without labels and with them. Seconds are those of the processor, of the program and of the
system for it, so that it matters little what else the machine does; the runs of a program take turns, and shown is the median of ROUNDS (5).
Each run under Valgrind has the time in it that Valgrind takes to begin, about 0.4 seconds. With PROFILE (a folder) `perf` writes there what of
the recorder takes the time.

Valgrind without a tool does not know clwb: the programs that have one in their loops are not run so, and the one that computes ends by it.
A trace has a million events; what an engine does after them is run and not recorded. The engines are those of Debian's packages
tokyocabinet-bin, kyotocabinet-utils, sqlite3 and liblmdb-dev, where they are installed."""
import pathlib
import resource
import shutil
import statistics
import subprocess
import sys
import tempfile
from typing import NamedTuple

TOP = pathlib.Path(__file__).resolve().parents[2]
HERE = TOP / "bench/valgrind"
RECORD = TOP / "recorders/valgrind/pmtrim-record"
BARE = ["valgrind", "--tool=none", "-q", "--fair-sched=yes"]
PLAIN, RECORDED = ["tests/recorders/valgrind/real", "recorders/valgrind"], ["recorders/c"]
THREADS = TOP / "tests/recorders/valgrind/threads.c"
SQL = """\
pragma journal_mode = wal;
create table words (number integer primary key, word text);
insert into words select value, hex(randomblob(20)) from generate_series(1, 60000);
create index by_word on words (word);
select count(*) from words one, words two where two.number = one.number * 7919 % 60000 + 1 and two.word > one.word;
"""
ENGINES = {
    "tchtest, a hash table": ["tchtest", "write", "POOL", "300000"],
    "tchmttest, 4 threads": ["tchmttest", "write", "POOL", "4", "20000"],
    "kchashtest, a hash table": ["kchashtest", "order", "POOL", "150000"],
    "sqlite3, its log written": ["sqlite3", "POOL", SQL],
}
KINDS = ("plain", "valgrind", "pmtrace.h", "recorded", "with labels")


class Program(NamedTuple):
    """A program that is measured: its words, those under Valgrind without a tool, and those of pmtrace.h; and how it is to be recorded."""

    name: str
    words: list
    bare: list | None = None
    recorded: list | None = None
    options: tuple = ()


def build(source, folders, target, *libraries):
    includes = [word for folder in folders for word in ("-I", TOP / folder)]
    subprocess.run(["gcc", "-O2", "-g", "-mclwb", "-pthread", *includes, source, "-o", target, *libraries], check=True)
    return target


def processor_time():
    used = resource.getrusage(resource.RUSAGE_CHILDREN)
    return used.ru_utime + used.ru_stime


def seconds(words, folder):
    """Seconds of the processor for a run, which begins without pools."""
    for left in folder.glob("pool*"):
        left.unlink()
    used = processor_time()
    subprocess.run([str(word) for word in words], stdin=subprocess.DEVNULL, stdout=subprocess.DEVNULL, stderr=subprocess.DEVNULL)
    return processor_time() - used


def programs(folder):
    pool, trace = folder / "pool", folder / "trace"
    threads = build(THREADS, PLAIN, folder / "threads")
    inserts = build(HERE / "inserts.c", PLAIN, folder / "inserts")
    inserts_recorded = build(HERE / "inserts.c", RECORDED, folder / "inserts.recorded")
    compute = [build(HERE / "compute.c", PLAIN, folder / "compute"), pool, "unused"]
    compute_recorded = [build(HERE / "compute.c", RECORDED, folder / "compute.recorded"), pool, trace]
    yield Program("saves in a loop", [build(HERE / "flushes.c", PLAIN, folder / "flushes"), pool])
    for count in ("1", "4"):
        name = f"inserts, {count} thread{'s' * (count != '1')}"
        yield Program(name, [inserts, pool, "unused", count], recorded=[inserts_recorded, pool, trace, count])
    yield Program("64 threads, 125 saves each", [threads, "free", pool, "64", "125"])
    barrier = [threads, "barrier", pool, "128", "1"]
    yield Program("128 threads at a barrier", barrier, barrier)
    yield Program("work in memory", compute, compute, compute_recorded)
    for name, words in ENGINES.items():
        if shutil.which(words[0]):
            engine = [pool if word == "POOL" else word for word in words]
            yield Program(name, engine, engine, options=(f"--file={pool}", f"--file={pool}-wal") if words[0] == "sqlite3" else ())
    if pathlib.Path("/usr/include/lmdb.h").exists():
        lmdb = build(HERE / "lmdb.c", [], folder / "lmdb", "-llmdb")
        for transactions in ("100", "700"):
            words = [lmdb, pool, transactions]
            yield Program(f"LMDB, {transactions},000 records", words, words)


def runs_of(program, trace):
    """The words of each kind of run; None where there is none."""
    record = [RECORD, *program.options, "--trace", trace]
    return [
        program.words,
        program.bare and [*BARE, *program.bare],
        program.recorded,
        [*record, "--labels", "no", *program.words],
        [*record, *program.words],
    ]


def measure(runs, folder, rounds):
    """The median of each kind of run, which take turns."""
    found = [[seconds(run, folder) for run in runs if run] for _ in range(rounds)]
    medians = iter([statistics.median(times) for times in zip(*found)])
    return [next(medians) if run else None for run in runs]


def row(program, times, events):
    shown = "".join(f"{took:12.2f}" if took is not None else f"{'-':>12}" for took in times)
    plain, bare, last = times[0], times[1], times[-1]
    return f"{program.name:26}{events:8}{shown}{last / plain:9.1f}" + (f"{last / bare:9.2f}" if bare else f"{'-':>9}")


def profile(program, trace, target):
    words = [str(word) for word in (RECORD, *program.options, "--trace", trace, *program.words)]
    subprocess.run(["perf", "record", "-q", "-o", f"{target}.data", *words], stdin=subprocess.DEVNULL, stdout=subprocess.DEVNULL)
    with open(target, "w", encoding="utf-8") as file:
        subprocess.run(["perf", "report", "-i", f"{target}.data", "--stdio"], stdout=file, stderr=subprocess.DEVNULL)


def main():
    rounds = int(sys.argv[1]) if len(sys.argv) > 1 else 5
    subprocess.run(["make", "-s", "-C", TOP / "recorders/valgrind"], check=True)
    print(f"{'seconds of the processor':26}{'events':>8}" + "".join(f"{kind:>12}" for kind in KINDS) + f"{'/plain':>9}{'/valgrind':>10}")
    with tempfile.TemporaryDirectory() as name:
        folder = pathlib.Path(name)
        trace = folder / "trace"
        for program in programs(folder):
            times = measure(runs_of(program, trace), folder, rounds)
            events = trace.read_text().count("\n") - 1
            print(row(program, times, events), flush=True)
            if len(sys.argv) > 2:
                profile(program, trace, pathlib.Path(sys.argv[2]) / program.name.replace(" ", "_"))


if __name__ == "__main__":
    main()
