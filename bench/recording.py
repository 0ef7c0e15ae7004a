#!/usr/bin/env python3
"""Times `record` for a million events in all by 1, 4 and 256 scripts: recording.py [PROGRAM].

The time is that of the whole run: the scripts are read, recorded by a thread each, compared with the book, and the trace is
written. Each script increments a counter in a line of its own: a store, its flush and a fence.
"""
import pathlib
import subprocess
import sys
import tempfile
import time

EVENTS = 1_000_000


def script(number, events):
    line = 0x1000 + 64 * number
    step = f"store {line:#x} 01\nclwb {line:#x}\nsfence\n"
    return step * (events // 3) + "sfence\n" * (events % 3)


def timed(program, count):
    with tempfile.TemporaryDirectory() as folder:
        names = []
        for number in range(count):
            name = pathlib.Path(folder, f"{number}.script")
            name.write_text(script(number, EVENTS // count))
            names.append(str(name))
        start = time.perf_counter()
        done = subprocess.run([program, "record", *names], capture_output=True, check=True)
        took = time.perf_counter() - start
    events = done.stdout.count(b"\n") - 1
    print(f"recorded by {count} threads: {events} events, {took:.2f} s, {took / events * 1e9:.0f} ns an event")


def main():
    top = pathlib.Path(__file__).resolve().parent.parent
    program = sys.argv[1] if len(sys.argv) > 1 else str(top / "crates/pmtrim/out/pmtrim")
    for count in [1, 4, 256]:
        timed(program, count)


if __name__ == "__main__":
    main()
