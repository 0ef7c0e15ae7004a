"""Runs the checker on an image, whatever it does."""
import os
import selectors
import subprocess
import time
from typing import NamedTuple

from commands import how_it_ended
from faults import of_file

KEPT_BYTES, KEPT_LINES, LINE_LENGTH = 8192, 5, 160
FILE_ROOM = 1 << 30  # so many bytes more than the greatest pool may a file have that the checker writes
# sets the limits, in blocks of 512 bytes, and becomes the checker
LIMITED = 'ulimit -c 0; ulimit -f "$0" 2> /dev/null || :; exec "$@"'


class Outcome(NamedTuple):
    """How a checker ended, and the last lines of what it wrote."""

    failed: bool
    status: str
    tail: list


class Output:
    """The end of what comes from a pipe."""

    def __init__(self, pipe):
        self.pipe = pipe
        self.bytes = b""
        os.set_blocking(pipe, False)

    def take(self):
        """Takes what is there, at most a piece. Answers whether there may be more."""
        try:
            piece = os.read(self.pipe, 1 << 16)
        except BlockingIOError:
            return False
        self.bytes = (self.bytes + piece)[-KEPT_BYTES:]
        return bool(piece)

    def take_rest(self):
        """Takes what a pipe can hold once nobody is to write any more."""
        for _ in range(32):
            if not self.take():
                break

    def lines(self, own_words):
        """The last lines, cut, without bytes that a terminal would obey, and with other words for some, by which one run differs from the
        next."""
        text = self.bytes.decode("utf-8", "replace")
        for own, other in own_words.items():
            text = text.replace(own, other)
        shown = ["".join(letter if letter.isprintable() else "?" for letter in line.rstrip("\r").expandtabs()) for line in text.split("\n")]
        return [line if len(line) <= LINE_LENGTH else line[: LINE_LENGTH - 3] + "..." for line in shown if line][-KEPT_LINES:]


class Checker:
    """The checker's words, and its limits."""

    def __init__(self, words, seconds, most_pool, processes):
        self.words = words
        self.seconds = seconds
        self.blocks = (most_pool + FILE_ROOM) // 512 + 1
        self.processes = processes

    def words_for(self, paths):
        """Its words, with the paths of the images in their places."""
        words = self.words
        for number, path in enumerate(paths, 1):
            words = [word.replace("{}" if number == 1 else f"{{{number}}}", str(path)) for word in words]
        return words

    def run(self, paths, folder):
        """Runs it, with a folder for its temporary files."""
        words = ["sh", "-c", LIMITED, str(self.blocks), *self.words_for(paths)]
        environment = {**os.environ, "TMPDIR": str(folder)}
        own_words = {str(path): "{}" if number == 1 else f"{{{number}}}" for number, path in enumerate(paths, 1)}
        own_words[str(folder)] = "$TMPDIR"
        try:
            process = self.processes.begin(words, stdin=subprocess.DEVNULL, stdout=subprocess.PIPE, stderr=subprocess.STDOUT, env=environment)
        except OSError as error:
            raise of_file(words[0], error) from error
        with process.stdout:
            output = Output(process.stdout.fileno())
            in_time = self._wait(process, output)
            self.processes.kill_group(process)
            process.wait()
            output.take_rest()
        self.processes.ended(process)
        self.processes.go_on()
        return Outcome(not in_time or process.returncode != 0, self._status(process.returncode, in_time), output.lines(own_words))

    def _wait(self, process, output):
        """Waits for the checker's end, and takes what it writes. Answers whether it ended in time."""
        until = time.monotonic() + self.seconds
        handle = os.pidfd_open(process.pid)
        try:
            with selectors.DefaultSelector() as selector:
                selector.register(handle, selectors.EVENT_READ)
                selector.register(output.pipe, selectors.EVENT_READ)
                while (left := until - time.monotonic()) > 0:
                    ready = {key.fd for key, _ in selector.select(left)}
                    if handle in ready:
                        return True
                    if output.pipe in ready and not output.take():
                        selector.unregister(output.pipe)
        finally:
            os.close(handle)
        return False

    def _status(self, code, in_time):
        if not in_time:
            return f"no end within {self.seconds} s"
        return how_it_ended(code)
