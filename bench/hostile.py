#!/usr/bin/env python3
"""Times the refusal of hostile texts of some 60 MB, beside `wc -l` of each: hostile.py PROGRAM. Each has to be refused at its line."""
import pathlib
import subprocess
import sys
import time

OUT = pathlib.Path(__file__).resolve().parent / "out"
SIZE = 60_000_000
HEADER = b"pmtrace 1\n"
GOOD = b"store 0 0x7f0000000000 0123456789abcdef\n"

# Each text by its name, with what the program writes of it.
TEXTS = {
    "one_line": (HEADER + b"s" * SIZE, "trace line 2: truncated"),
    "one_line_ended": (HEADER + b"store 0 0x0 " + b"0" * SIZE + b"\n", "trace line 2: out-of-range"),
    "long_digits": (HEADER + b"clwb 0 0x" + b"0" * SIZE + b"\n", "trace line 2: bad-field"),
    "empty_lines": (HEADER + b"\n" * SIZE, "trace line 2: bad-word"),
    "faulty_last_bytes": (HEADER + b"store 0 0x7f0000000000 0123456789abcdeg\n" * 1_000_000, "trace line 2: bad-field"),
    "faulty_last_line": (HEADER + GOOD * 999_999 + b"store 0 0x7f0000000000 0123456789abcdeg\n", "trace line 1000001: bad-field"),
    "long_last_line": (HEADER + GOOD * 999_999 + b"isPersist 0 0x1 " + b"9" * 20_000_000 + b"\n", "trace line 1000001: out-of-range"),
}


def seconds_of(words):
    start = time.perf_counter()
    ran = subprocess.run(words, stdout=subprocess.DEVNULL, stderr=subprocess.PIPE, text=True)
    return time.perf_counter() - start, ran


def main():
    if len(sys.argv) != 2:
        sys.exit(__doc__)
    OUT.mkdir(exist_ok=True)
    file = OUT / "hostile.trace"
    wrong = False
    print(f"\n{'hostile text':18} {'MB':>6} {'wc -l':>8} {'check':>8}")
    for name, (text, wanted) in TEXTS.items():
        file.write_bytes(text)
        counted = min(seconds_of(["wc", "-l", file])[0] for _ in range(3))
        runs = [seconds_of([sys.argv[1], "check", file]) for _ in range(3)]
        told = {(ran.returncode, ran.stderr.strip()) for _, ran in runs}
        print(f"{name:18} {len(text) / 1e6:6.0f} {counted:8.3f} {min(taken for taken, _ in runs):8.3f}", flush=True)
        if told != {(3, wanted)}:
            print(f"{name}: {told}, and not {wanted}")
            wrong = True
    file.unlink()
    return 1 if wrong else 0


if __name__ == "__main__":
    sys.exit(main())
