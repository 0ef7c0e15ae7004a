"""threads.py PREFIX turns|free [forget]: does what threads.c does, by the recorder for Python."""
import contextlib
import mmap
import pathlib
import sys
import threading

import pmtrace

THREADS, SLICES, SLICE, HEAD = 12, 10, 8192, 4096
POOL = HEAD + THREADS * SLICES * SLICE
PREFIX, MODE = sys.argv[1:3]
FORGETS = len(sys.argv) == 4
NEXT = threading.Condition()
turn = 0


@contextlib.contextmanager
def in_turn(thread):
    global turn
    if MODE == "turns":
        with NEXT:
            NEXT.wait_for(lambda: turn % THREADS == thread)
    yield
    if MODE == "turns":
        with NEXT:
            turn += 1
            NEXT.notify_all()


def count(pool):
    seen = pool.read(0, 8)
    while not pool.compare_exchange(0, seen, (int.from_bytes(seen, "little") + 1).to_bytes(8, "little")):
        seen = pool.read(0, 8)


def write_slice(pool, thread, number):
    place = HEAD + (thread * SLICES + number) * SLICE
    length = 1 + (thread * 977 + number * 1613) % 6000
    start = place + (thread + 3 * number) % 64
    data = bytes((at * (thread + 1) + number + 1) % 256 for at in range(length))
    with in_turn(thread):
        pool.store(start, data)  # forgotten
    with in_turn(thread):
        if not (FORGETS and thread == 5 and number == 7):
            (pool.persist, pool.clwb, pool.clflush)[number % 3](start, length)
    with in_turn(thread):
        pool.sfence()
    with in_turn(thread):
        pool.is_persist(start, length)  # claimed
    with in_turn(thread):
        pool.fill(place + 7000, 1, 20)
    with in_turn(thread):
        pool.persist(place + 7000, 20)
    with in_turn(thread):
        pool.is_ordered_before(start, length, place + 7000, 20)
    with in_turn(thread):
        count(pool)


def write_slices(pool, thread):
    for number in range(SLICES):
        write_slice(pool, thread, number)


memory = mmap.mmap(-1, POOL)
recorder = pmtrace.Recorder(f"{PREFIX}.trace", memory, labels=True)
threads = [threading.Thread(target=write_slices, args=(recorder, thread)) for thread in range(THREADS)]
for thread in threads:
    thread.start()
for thread in threads:
    thread.join()
recorder.persist(0, 8)
if not recorder.close():
    sys.exit(1)
pathlib.Path(f"{PREFIX}.memory").write_bytes(memory)
