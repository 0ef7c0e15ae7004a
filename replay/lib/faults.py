"""What ends a program before its end, and with which status."""

NEW, WRONG_WORDS, REFUSED, FILE_FAULT, NO_MEMORY, DISAGREEMENT = 1, 2, 3, 4, 5, 6


class Fault(Exception):
    """A fault that is told in one line, with the status that it gives the program."""

    def __init__(self, status, text):
        super().__init__(text)
        self.status = status


def of_file(path, error):
    """The fault of a file that can't be read or written."""
    return Fault(FILE_FAULT, f"{path}: {error.strerror or error}")
