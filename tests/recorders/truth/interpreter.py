"""interpreter.py DATA SCRIPT: does the random programs of a script, as interpreter.c does, by the recorder for Python."""
import itertools
import os
import pathlib
import struct
import sys
import threading
import time

import pmtrace

RECORD = struct.Struct("<8Q")


class Program:
    """`program LINE_SIZE POOLS THREADS TRACE LOG`, `pool LENGTH SKEW PATH`, and for each thread `thread COUNT` and its operations."""

    def __init__(self, header, lines, data):
        _, line_size, _, threads, self.trace, log = header
        _, length, _, self.memory_path = next(lines)
        self.line_size = int(line_size)
        self.memory = bytearray(int(length))
        self.data = data
        self.threads, self.records = [], []
        for _ in range(int(threads)):
            count = int(next(lines)[1])
            self.records.append(sum(map(len, self.threads)))
            self.threads.append([next(lines) for _ in range(count)])
        self.log = os.open(log, os.O_RDWR | os.O_CREAT)
        os.truncate(self.log, RECORD.size * (sum(map(len, self.threads)) + 1))
        self.tickets = itertools.count(1)
        self.gate = threading.Event()
        self.handles = {}

    def run(self, thread):
        for at, (word, *numbers) in enumerate(self.threads[thread]):
            place = RECORD.size * (self.records[thread] + at)
            begun = next(self.tickets)
            os.pwrite(self.log, RECORD.pack(begun, 0, 0, 0, 0, 0, 0, 0), place)
            answer, expected, seen = self.perform(word, list(map(int, numbers))) or (0, 0, 0)
            os.pwrite(self.log, RECORD.pack(begun, next(self.tickets), answer, expected, 0, seen, 0, 0), place)

    def perform(self, word, numbers):
        do = getattr(self, f"do_{word}", None)
        return do(*numbers) if do else self.record(word, numbers)

    # Threads and the trace

    def do_open(self, _):
        self.pool = pmtrace.Recorder(self.trace, self.memory, line_size=self.line_size, labels=True)

    def do_close(self):
        complete = self.pool.close()
        pathlib.Path(self.memory_path).write_bytes(self.memory)
        return not complete, 0, 0

    def do_spawn(self, thread):
        self.handles[thread] = threading.Thread(target=self.run, args=(thread,))
        self.handles[thread].start()

    def do_join(self, thread):
        self.handles[thread].join()

    def do_wait(self):
        self.gate.wait()

    def do_go(self):
        self.gate.set()

    def do_yield(self):
        time.sleep(0)

    def do_pause(self, rounds):
        for _ in range(rounds):
            pass

    def do_exit(self, status):
        os._exit(status)

    def do_abort(self):
        os.abort()

    # Stores and loads

    def do_store(self, _, at, length, source):
        self.pool.store(at, self.data[source : source + length])

    do_copy = do_move = do_store

    def do_fill(self, _, at, length, byte):
        self.pool.fill(at, byte % 256, length)

    def do_within(self, _, at, length, __, other):
        self.pool.copy(at, other, length)

    def do_read(self, _, at, length):
        return 0, 0, int.from_bytes(self.pool.read(at, length), "little")

    def do_compare(self, _, at, length, source, guess, mode):
        """What a failed exchange saw is not answered: it is read again."""
        expected = self.pool.read(at, length) if mode == 1 else self.data[guess : guess + length]
        done = self.pool.compare_exchange(at, expected, self.data[source : source + length])
        seen = expected if done else self.pool.read(at, length)
        return done, int.from_bytes(expected, "little"), int.from_bytes(seen, "little")

    def record(self, word, numbers):
        if word in ("sfence", "mfence"):
            getattr(self.pool, word)()
        elif word == "is_ordered":
            self.pool.is_ordered_before(*numbers[1:3], *numbers[4:6])
        else:
            getattr(self.pool, word)(*numbers[1:3])


def main():
    data = pathlib.Path(sys.argv[1]).read_bytes()
    lines = (line.split(" ") for line in pathlib.Path(sys.argv[2]).read_text().splitlines())
    for header in lines:
        Program(header, lines, data).run(0)


main()
