"""faults.py TRACE CASE: what a recorder meets, as in faults.c, by the recorder for Python."""
import os
import sys
import threading

import pmtrace

POOL, PAGE = 9_000_000, 4096


def save_a_word(pool):
    pool.store(0, b"a word..")
    pool.persist(0, 8)


def count_threads(pool):
    for _ in range(257):
        thread = threading.Thread(target=save_a_word, args=(pool,))
        thread.start()
        thread.join()


def leave_the_pool(pool):
    """Each call must be refused and change nothing."""
    calls = (
        lambda: pool.store(POOL - 8, bytes(16)),
        lambda: pool.fill(-1, 1, 1),
        lambda: pool.clwb(POOL, 1),
        lambda: pool.is_persist(POOL - 1, 2),
        lambda: pool.is_ordered_before(0, 8, POOL, 8),
        lambda: pool.copy(POOL - 8, 0, 16),
    )
    for call in calls:
        try:
            call()
        except IndexError:
            continue
        sys.exit("a call outside was taken")
    save_a_word(pool)


def run(pool, case):
    if case in ("abort", "exit"):
        save_a_word(pool)
        os.abort() if case == "abort" else sys.exit(3)
    elif case == "threads":
        count_threads(pool)
    elif case == "outside":
        leave_the_pool(pool)
    elif case == "disk":
        for page in range(100):
            pool.fill(page * PAGE, page, PAGE)
    elif case in ("events", "moves"):
        os.chdir("/" if case == "moves" else ".")
        pool.fill(0, 1, POOL)
    print("closed", 0 if pool.close() else -1)


try:
    recorder = pmtrace.Recorder(sys.argv[1], bytearray(POOL))
except OSError as error:
    sys.exit(f"not opened: {error}")
run(recorder, sys.argv[2])
