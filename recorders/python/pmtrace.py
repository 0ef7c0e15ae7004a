"""Records what a program does to persistent memory, as a trace for pmtrim.

A Recorder is laid over the memory of a pool: a mapped file (mmap.mmap), or a bytearray that stands for one. Threads share it, and name
places of the pool by their distance from its beginning, which is the beginning of a cache line:

    with pmtrace.Recorder("run.trace", bytearray(8192), labels=True) as pool:
        pool.store(4096, b"a record")
        pool.persist(4096, 8)
        pool.store(0, (4096).to_bytes(8, "little"))
        pool.persist(0, 8)
        pool.is_ordered_before(4096, 8, 0, 8)

- A store is done and noted under one lock, so the order in the trace is the order in which memory saw the recorded stores.
- A flush or a fence is only noted.
- Each call writes its events before it returns, so nothing is lost when the program exits, aborts or is killed. (A signal that kills
  inside a write may leave a part of a line, which pmtrim refuses as `truncated`.)
- The trace is always a true beginning of what happened. It ends early where it is full (1,000,000 events), where a 257th thread comes,
  or where the file can't be written. Standard error tells of it once, and so do the answer of `close` and the file FILE.cut, whose line
  has the number of the last event and the reason. A trace without events has such a file too.
- A range that leaves the pool is refused by IndexError; nothing is changed or noted then.
"""
import contextlib
import os
import stat
import sys
import threading

MOST_EVENTS = 1_000_000
MOST_THREADS = 256
MOST_ASSERTED = 4096
WORD_BYTES = 8
LINE_SIZES = (32, 64, 128, 256)


class Recorder:
    """The memory of a pool, and the trace of what happens to it."""

    def __init__(self, file, memory, line_size=64, labels=False):
        """Begins a trace in `file`. With `labels`, FILE.labels has for each event the source line of its call, as `EVENT FILE:LINE`.

        Raises OSError where a file can't be made or written, and ValueError for a line size that is none of LINE_SIZES.
        """
        if line_size not in LINE_SIZES:
            raise ValueError(f"a line has 32, 64, 128 or 256 bytes, not {line_size}")
        self.memory = memory
        self._line_size = line_size
        self._length = len(memory)
        self._lock = threading.Lock()
        self._thread = threading.local()
        self._threads = self._events = self._missing = 0
        self._ended = None
        self._name = os.fspath(file)
        self._here = os.getcwd() + os.sep
        self._cut = os.path.abspath(self._name) + ".cut"
        self._trace = open(file, "wb", buffering=0)
        self._labels = None
        with contextlib.suppress(FileNotFoundError):
            os.unlink(self._cut)
        header = b"pmtrace 2 %d\n" % line_size
        _write_whole(self._trace, header)
        self._written = len(header)
        if labels:
            self._labels = open(f"{self._name}.labels", "wb", buffering=0)

    def __enter__(self):
        return self

    def __exit__(self, *_):
        self.close()

    def close(self):
        """Ends the trace. True where all that happened is in it."""
        with self._lock:
            if not self._trace.closed:
                if self._ended is None and self._events == 0:
                    self._write_cut("no event came")
                self._trace.close()
                if self._labels:
                    self._labels.close()
                if self._missing:
                    self._tell(f"{self._missing} later events are not in the trace")
            if self._ended is None:
                self._ended = "it is closed"
                return True
            return False

    def read(self, at, length):
        """The bytes from `at` on."""
        self._check(at, length)
        with self._lock:
            return bytes(self.memory[at : at + length])

    def store(self, at, data):
        """Stores bytes. In the trace they are stores of at most an aligned word of 8 bytes each, by rising address."""
        data = bytes(data)
        self._check(at, len(data))
        label = self._label()
        with self._lock:
            self.memory[at : at + len(data)] = data
            self._write(self._stores(at, data), label)

    def copy(self, to, at, length):
        """Copies the bytes from `at` on to `to`; the two ranges may overlap."""
        self._check(at, length)
        self._check(to, length)
        label = self._label()
        with self._lock:
            data = bytes(self.memory[at : at + length])
            self.memory[to : to + length] = data
            self._write(self._stores(to, data), label)

    def fill(self, at, byte, length):
        """Stores one byte all over a range."""
        self.store(at, bytes([byte]) * length)

    def compare_exchange(self, at, expected, data):
        """Stores `data` where the bytes `expected` stand; says whether they did. Noted as a plain store if it wrote, and as no fence."""
        if len(expected) != len(data):
            raise ValueError("the two have different lengths")
        self._check(at, len(data))
        label = self._label()
        with self._lock:
            if self.memory[at : at + len(data)] != expected:
                return False
            self.memory[at : at + len(data)] = data
            self._write(self._stores(at, bytes(data)), label)
            return True

    def clwb(self, at, length):
        """Notes a clwb of each line of the range."""
        self._note(self._flushes("clwb", at, length))

    def clflushopt(self, at, length):
        """Notes a clflushopt of each line of the range."""
        self._note(self._flushes("clflushopt", at, length))

    def clflush(self, at, length):
        """Notes a clflush of each line of the range."""
        self._note(self._flushes("clflush", at, length))

    def sfence(self):
        """Notes an sfence of the calling thread."""
        self._note([("sfence", "")])

    def mfence(self):
        """Notes an mfence of the calling thread."""
        self._note([("mfence", "")])

    def persist(self, at, length):
        """Notes a clwb of each line of the range and an sfence, with no event of another thread between."""
        self._note(self._flushes("clwb", at, length) + [("sfence", "")])

    def is_persist(self, at, length):
        """Claims that no crash from here on loses what was stored last in the range.

        Longer ranges are cut at 4096 bytes: the claim holds exactly where all pieces pass.
        """
        self._check(at, length)
        self._note([("isPersist", f" {piece}") for piece in _pieces(at, length)])

    def is_ordered_before(self, first, first_length, second, second_length):
        """Claims that at no moment so far a crash could leave some of what was stored last in the second range without all of the first.

        Longer ranges are cut at 4096 bytes: the claim holds exactly where all pairs of pieces pass.
        """
        self._check(first, first_length)
        self._check(second, second_length)
        others = _pieces(second, second_length)
        self._note([("isOrderedBefore", f" {one} {other}") for one in _pieces(first, first_length) for other in others])

    def _check(self, at, length):
        if not 0 <= at <= at + length <= self._length:
            raise IndexError(f"{length} bytes at {at} are not all in the pool, which has {self._length} bytes")

    def _stores(self, at, data):
        events, end = [], at + len(data)
        place = at
        while place < end:
            after = min(end, place - place % WORD_BYTES + WORD_BYTES)
            events.append(("store", f" {place:#x} {data[place - at : after - at].hex()}"))
            place = after
        return events

    def _flushes(self, word, at, length):
        self._check(at, length)
        if length == 0:
            return []
        return [(word, f" {line:#x}") for line in range(at - at % self._line_size, at + length, self._line_size)]

    def _label(self):
        """The source line that called into this file."""
        if self._labels is None:
            return None
        frame = sys._getframe(1)
        while frame.f_code.co_filename == __file__ and frame.f_back:
            frame = frame.f_back
        return f"{frame.f_code.co_filename.removeprefix(self._here)}:{frame.f_lineno}"

    def _note(self, events):
        label = self._label()
        with self._lock:
            self._write(events, label)

    def _refusal(self):
        """Why the calling thread's next event can't be noted; None where it can, and the thread has a number."""
        if self._ended is None and self._events == MOST_EVENTS:
            return "a trace has at most 1000000 events"
        if self._ended is None and not hasattr(self._thread, "number"):
            if self._threads == MOST_THREADS:
                return "a trace has at most 256 threads, and here is the 257th"
            self._thread.number = self._threads
            self._threads += 1
        return self._ended

    def _write(self, events, label):
        """Writes the events of a call, and then their labels."""
        lines, labels, refusal = [], [], None
        for word, fields in events:
            refusal = refusal or self._refusal()
            if refusal is not None:
                self._missing += 1
                continue
            self._events += 1
            lines.append(f"{word} {self._thread.number}{fields}\n")
            if label is not None:
                labels.append(f"{self._events} {label}\n")
        written = self._write_lines("".join(lines).encode())
        if refusal is not None:
            self._end(refusal)
        if written and self._labels and labels:
            try:
                _write_whole(self._labels, "".join(labels).encode())
            except OSError as error:
                print(f"pmtrace: {self._name}.labels: the labels end here: {error.strerror}", file=sys.stderr)
                self._labels.close()
                self._labels = None

    def _write_lines(self, text):
        """Whether all is out. If not, the file is cut behind its last whole line, and the other events are missing."""
        try:
            _write_whole(self._trace, text)
        except OSError as error:
            out = self._trace.tell() - self._written if self._trace.seekable() else 0
            whole = text[:out].rfind(b"\n") + 1
            lost = text[whole:].count(b"\n")
            self._events -= lost
            self._missing += lost
            self._written += whole
            if whole < out:
                self._trace.truncate(self._written)
            self._end(error.strerror)
            return False
        self._written += len(text)
        return True

    def _end(self, why):
        if self._ended is None:
            self._tell(f"the trace ends after event {self._events}: {why}")
            self._write_cut(why)
            self._ended = why

    def _write_cut(self, why):
        """Says beside the trace that it is not all of what happened. No file stands beside a device."""
        if not stat.S_ISREG(os.fstat(self._trace.fileno()).st_mode):
            return
        try:
            with open(self._cut, "wb", buffering=0) as file:
                _write_whole(file, f"{self._events} {why}\n".encode())
        except OSError as error:
            print(f"pmtrace: {self._cut}: {error.strerror}", file=sys.stderr)

    def _tell(self, text):
        print(f"pmtrace: {self._name}: {text}", file=sys.stderr)


def _write_whole(file, data):
    while data:
        data = data[file.write(data) :]


def _pieces(at, length):
    """The range as fields of an assertion, cut at 4096 bytes."""
    return [f"{piece:#x} {min(MOST_ASSERTED, at + length - piece)}" for piece in range(at, at + length, MOST_ASSERTED)]
