"""Programs at a terminal of their own."""
import contextlib
import fcntl
import os
import pty
import select
import signal
import struct
import termios
import time

LINES, COLUMNS, SECONDS = 400, 200, 120


def begun(words, known=None, cwd="."):
    """The process, and the end of its terminal at which one types and reads."""
    child, end = pty.fork()
    if child == 0:
        os.chdir(cwd)
        os.execvpe(words[0], words, {**os.environ, **(known or {})})
    return child, end


def shown_at_a_terminal(words, cwd="."):
    """The status of a program on which an empty trace is typed, and what it shows."""
    child, end = begun(words, cwd=cwd)
    os.write(end, b"pmtrace 1\n\x04")
    shown = b""
    with contextlib.suppress(OSError):  # the terminal is gone once the program has ended
        while piece := os.read(end, 4096):
            shown += piece
    os.close(end)
    return os.waitstatus_to_exitcode(os.waitpid(child, 0)[1]), shown.decode()


class Terminal:
    """A program, which ends with its terminal."""

    def __init__(self, words, known=None):
        self.child, self.end = begun(words, known)
        fcntl.ioctl(self.end, termios.TIOCSWINSZ, struct.pack("HHHH", LINES, COLUMNS, 0, 0))

    def __enter__(self):
        return self

    def __exit__(self, *_):
        os.kill(self.child, signal.SIGKILL)
        os.waitpid(self.child, 0)
        os.close(self.end)

    def typed(self, text, until):
        """Types a text, and answers what is shown until a text stands there, or for SECONDS."""
        os.write(self.end, text.encode())
        shown, last = "", time.monotonic() + SECONDS
        while until not in shown and select.select([self.end], [], [], max(0, last - time.monotonic()))[0]:
            shown += os.read(self.end, 1 << 16).decode(errors="replace")
        return shown
