#!/usr/bin/env python3
"""Times pmtrim on traces of a million events, beside floors timed in the same run: run.py [--events N] [--program FILE] [KIND ..]

Without KIND all kinds of traces.py are run. Traces and the plain Rust program are made in bench/out/ on first use. Of each run the
table gives seconds, events and megabytes of trace text per second, the peak of memory, and that peak by events (a peak of some 15 MB
or less is this script's own, and says nothing), and how many times what the plain program takes for the same that is: for a command,
for reading and writing; for `fronts` at place 0, which reads and judges all of the text and follows no event, for reading. Beside it
stands what an event of each kind costs in traces of 125,000 to 1,000,000 events.
"""
import argparse
import hashlib
import os
import pathlib
import subprocess
import sys
import time

BENCH = pathlib.Path(__file__).resolve().parent
OUT = BENCH / "out"
WANTED_BYTES = {"log_appends": 400, "many_lines": 700}
COMMANDS = (["check"], ["check", "--workers", "4"], ["trim"], ["trim", "--stream"])
GROWTH = (125_000, 250_000, 500_000, 1_000_000)


def built_floor():
    """The plain Rust reader and writer."""
    plain, source = OUT / "plain", BENCH / "plain.rs"
    if not plain.exists() or plain.stat().st_mtime < source.stat().st_mtime:
        subprocess.run(["rustc", "--edition", "2021", "-O", "-o", plain, source], check=True)
    return plain


def made_traces(kinds, events):
    """The files of these kinds, made side by side where they are not there yet."""
    maker, files, running = BENCH / "traces.py", {}, []
    for kind in kinds:
        files[kind] = OUT / f"{kind}-{events}.trace"
        if not files[kind].exists() or files[kind].stat().st_mtime < maker.stat().st_mtime:
            with open(files[kind], "wb") as file:
                running.append(subprocess.Popen([sys.executable, maker, kind, str(events)], stdout=file))
    if any(process.wait() for process in running):
        sys.exit("a trace was not made")
    return files


def timed(words):
    """The status, seconds, peak bytes and output of a run."""
    answer = OUT / "answer"
    with open(answer, "wb") as out:
        start = time.perf_counter()
        process = subprocess.Popen(words, stdin=subprocess.DEVNULL, stdout=out, stderr=subprocess.DEVNULL)
        _, status, used = os.wait4(process.pid, 0)
        seconds = time.perf_counter() - start
    process.returncode = os.waitstatus_to_exitcode(status)
    return process.returncode, seconds, used.ru_maxrss * 1024, answer


def small_peak(words):
    """The peak bytes of a run as GNU time tells them, which a peak of this script does not hide; None without GNU time."""
    told = OUT / "peak"
    if not os.access("/usr/bin/time", os.X_OK):
        return None
    subprocess.run(["/usr/bin/time", "-f", "%M", "-o", told, *words], stdout=subprocess.DEVNULL, stderr=subprocess.DEVNULL)
    return int(told.read_text().split()[-1]) * 1024


def digest(file):
    """Stands for the bytes of the file, which are not held: the memory of this script would count for the runs that it starts."""
    with open(file, "rb") as bytes_of:
        return hashlib.file_digest(bytes_of, "sha256").digest()


def read_and_write(plain, trace):
    """The seconds of reading and of writing that the plain program tells as `read SECONDS write SECONDS`, and its peak bytes."""
    status, _, peak, answer = timed([plain, trace])
    told = answer.read_text().split()
    if status != 0 or len(told) != 4:
        sys.exit(f"{plain} does not read {trace}")
    return float(told[1]), float(told[3]), peak


def row(kind, what, seconds, size, events, peak, floor):
    """A line of the table; floor is the seconds that the plain program took to read and write."""
    seconds = max(seconds, 1e-6)
    by_floor = f"{seconds / floor:8.1f}" if floor else ""
    print(f"{kind:18} {what:18} {seconds:8.3f} {events / seconds / 1e6:9.2f} {size / seconds / 1e6:8.0f} {peak / 1e6:8.0f} {peak / events:9.0f} {by_floor}", flush=True)


def run_kind(kind, trace, events, plain, program):
    """Prints the lines of a kind, and gives the peak bytes of trim by event, if it is there."""
    size, peak_of_trim = trace.stat().st_size, None
    _, seconds, peak, _ = timed(["wc", "-l", trace])
    row(kind, "wc -l", seconds, size, events, peak, None)
    read, write, peak = read_and_write(plain, trace)
    row(kind, "plain read", read, size, events, peak, None)
    row(kind, "plain write", write, size, events, peak, None)
    _, seconds, peak, _ = timed([program, "fronts", trace, "0"])
    row(kind, "fronts at place 0", seconds, size, events, peak, read)
    trimmed = None
    for command in COMMANDS:
        status, seconds, peak, answer = timed([program, *command, trace])
        if status in (0, 1):
            row(kind, " ".join(command), seconds, size, events, peak, read + write)
            if command == ["trim", "--stream"] and (streamed := small_peak([program, *command, trace])):
                print(f"{kind:18} {'streams in':18} {streamed / 1e6:.1f} MB (wanted of log_appends: under 20)", flush=True)
            if command == ["trim"]:
                peak_of_trim = peak / events
                trimmed = digest(answer)
            elif trimmed is not None and digest(answer) != trimmed:
                sys.exit(f"{kind}: {' '.join(command)} wrote other bytes than trim")
        else:
            print(f"{kind:18} {' '.join(command):18} {'not there yet' if status == 2 else f'status {status}'}", flush=True)
    return peak_of_trim


def show_growth(kind, program):
    """Seconds and peak bytes by event of each command, the best of three runs, on longer and longer traces of the kind."""
    print(f"\nGrowth on {kind}: microseconds and peak bytes by event")
    print(f"{'events':>10} " + " ".join(f"{' '.join(command):>20}" for command in COMMANDS))
    for events in GROWTH:
        trace, cells = made_traces([kind], events)[kind], []
        for command in COMMANDS:
            runs = [timed([program, *command, trace]) for _ in range(3)]
            seconds, peak = min(run[1] for run in runs), min(run[2] for run in runs)
            cells.append(f"{seconds / events * 1e6:10.3f} {peak / events:9.0f}")
        print(f"{events:10} " + " ".join(cells), flush=True)


def main():
    listed = subprocess.run([sys.executable, BENCH / "traces.py"], capture_output=True, text=True, check=True).stdout
    known = [line.split("\t")[0] for line in listed.splitlines()]
    asked = argparse.ArgumentParser(description=__doc__, formatter_class=argparse.RawDescriptionHelpFormatter)
    asked.add_argument("kinds", nargs="*", metavar="KIND", help=", ".join(known))
    asked.add_argument("--events", type=int, default=1_000_000)
    asked.add_argument("--program", default=BENCH.parent / "crates" / "pmtrim" / "out" / "pmtrim", help="a built pmtrim")
    asked = asked.parse_args()
    unknown = [kind for kind in asked.kinds if kind not in known]
    if unknown:
        asked.error(f"no kind {unknown[0]}: the kinds are {', '.join(known)}")
    OUT.mkdir(exist_ok=True)
    plain = built_floor()
    traces = made_traces(asked.kinds or known, asked.events)
    print(f"{asked.events} events")
    print(f"{'trace':18} {'what':18} {'seconds':>8} {'Mevent/s':>9} {'MB/s':>8} {'peak MB':>8} {'byte/ev':>9} {'x plain':>8}")
    start = time.perf_counter()
    peaks = {kind: run_kind(kind, trace, asked.events, plain, asked.program) for kind, trace in traces.items()}
    for kind in traces:
        show_growth(kind, asked.program)
    for kind, wanted in WANTED_BYTES.items():
        if peaks.get(kind):
            print(f"memory of trim, {kind}: {peaks[kind]:.0f} bytes an event (wanted: at most {wanted})")
    print(f"measured in {time.perf_counter() - start:.0f} seconds")


if __name__ == "__main__":
    main()
