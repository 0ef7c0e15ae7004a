"""What runs at a time, so that it can be ended: each program in a group of processes of its own."""
import os
import signal
import subprocess
import threading

ENDING = (signal.SIGINT, signal.SIGTERM, signal.SIGHUP)


class Stopped(Exception):
    """Nothing is begun any more."""


class Ended(Exception):
    """A signal asks for the end."""


class Processes:
    """The programs that were begun and have not ended."""

    def __init__(self):
        self.lock = threading.Lock()
        self.running = {}
        self.stopped = False
        self.beginning = False
        self.asked = None

    def end_by_signals(self):
        """From now on these signals ask for the end, but those that are ignored."""
        for number in ENDING:
            if signal.getsignal(number) != signal.SIG_IGN:
                signal.signal(number, self._end)

    def _end(self, number, _frame):
        for each in ENDING:
            signal.signal(each, signal.SIG_IGN)
        self.asked = number
        if not self.beginning:
            raise Ended(number)

    def begin(self, words, **options):
        """Begins a program. Signals come to the main thread: one that comes while it begins a program waits until that can be ended."""
        if threading.current_thread() is not threading.main_thread():
            return self._begin(words, options)
        self.beginning = True
        try:
            return self._begin(words, options)
        finally:
            self.beginning = False
            if self.asked is not None:
                raise Ended(self.asked)

    def _begin(self, words, options):
        with self.lock:
            if self.stopped:
                raise Stopped
            process = subprocess.Popen(words, start_new_session=True, **options)
            self.running[process.pid] = process
        return process

    def ended(self, process):
        with self.lock:
            self.running.pop(process.pid, None)

    def go_on(self):
        """Raises Stopped once all was ended: what a program did then is no answer."""
        if self.stopped:
            raise Stopped

    def kill_group(self, process):
        """Ends a program that was not waited for yet, and what it has begun."""
        try:
            os.killpg(process.pid, signal.SIGKILL)
        except (ProcessLookupError, PermissionError):
            pass

    def stop(self):
        """Ends all, and lets none begin."""
        with self.lock:
            self.stopped = True
            for process in self.running.values():
                if process.returncode is None:
                    self.kill_group(process)
