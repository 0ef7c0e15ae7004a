"""How far a long run is, on standard error."""
import sys
import time

EVERY = {True: 0.2, False: 60.0}  # seconds between two lines: on a terminal, and elsewhere


class Progress:
    """Tells it in one line that changes, on a terminal, or else in a line a minute."""

    def __init__(self, program):
        self.program = program
        self.terminal = sys.stderr.isatty()
        self.pause = 0.2 if self.terminal else 1.0
        self.told = time.monotonic()
        self.width = 0

    def tell(self, text):
        now = time.monotonic()
        if now - self.told < EVERY[self.terminal]:
            return
        self.told = now
        if self.terminal:
            print(f"\r{text:{self.width}}", end="", file=sys.stderr, flush=True)
            self.width = len(text)
        else:
            print(f"{self.program}: {text}", file=sys.stderr, flush=True)

    def clear(self):
        if self.width:
            print(f"\r{'':{self.width}}\r", end="", file=sys.stderr, flush=True)
            self.width = 0
