"""Signals that ask for the end."""
import signal

ENDING = (signal.SIGINT, signal.SIGTERM, signal.SIGHUP)


class Ended(Exception):
    """A signal asks for the end: its number."""


def end(number, _frame):
    raise Ended(number)


def take_signals():
    """From here on such a signal raises Ended, unless it is ignored."""
    for number in ENDING:
        if signal.getsignal(number) != signal.SIG_IGN:
            signal.signal(number, end)


def end_by(number):
    """Ends by the signal, as whoever waits wants to know."""
    signal.signal(number, signal.SIG_DFL)
    signal.raise_signal(number)
    return 128 + number
