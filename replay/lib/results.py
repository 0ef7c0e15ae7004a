"""What checkers said, by image; and the file in which it stands, so that a run that was stopped goes on."""
import contextlib
import fcntl
import hashlib
import json
import os
import shutil

from faults import FILE_FAULT, WRONG_WORDS, Fault, of_file

STATE = "state.jsonl"


def digest_of(path):
    """The hash of a file's bytes."""
    try:
        with open(path, "rb") as file:
            digest = hashlib.sha256()
            while piece := file.read(1 << 20):
                digest.update(piece)
            return digest.hexdigest()
    except OSError as error:
        raise of_file(path, error) from error


def identity_of(options, pools):
    """What results depend on, by the name that is told where it differs."""
    return {
        "version": 2,  # of what stands in the file
        "trace": digest_of(options.trace),
        "base": [[digest_of(pool.base), pool.origin] for pool in pools],
        "checker": [digest_of(shutil.which(options.checker[0])), *options.checker],
        "--off": options.off,
        "--hold": sorted(options.hold),
        "--at": options.at and [list(places) for places in options.at],
        "--seconds": options.seconds,
    }


class Results:
    """Results in memory."""

    def __init__(self):
        self.known = {}

    def add(self, name, result):
        self.known[name] = result

    def close(self):
        pass


class KeptResults(Results):
    """Results that also stand in a folder: a first line that says of what they are, and a line for each image."""

    def __init__(self, folder, identity):
        super().__init__()
        path = folder / STATE
        try:
            folder.mkdir(parents=True, exist_ok=True)
            if not path.exists() and any(folder.iterdir()):
                raise Fault(WRONG_WORDS, f"{folder}: there are other files in it; --keep takes a new folder, or that of a run to go on")
            self.file = open(path, "a+", encoding="utf-8")
            self._lock(path)
            self._read(path, identity)
        except OSError as error:
            raise of_file(path, error) from error

    def _lock(self, path):
        try:
            fcntl.flock(self.file, fcntl.LOCK_EX | fcntl.LOCK_NB)
        except BlockingIOError as error:
            raise Fault(FILE_FAULT, f"{path}: another run has it open") from error

    def _read(self, path, identity):
        """Takes the results that stand there; a last line that was not written whole is taken off."""
        self.file.seek(0)
        text = self.file.read()
        whole, _, _ = text.rpartition("\n")
        lines = whole.split("\n") if whole else []
        self.file.truncate(len((whole + "\n").encode()) if whole else 0)
        if not lines:
            self._write(identity)
            return
        try:
            before, *results = [json.loads(line) for line in lines]
            differing = [name for name in identity if before[name] != identity[name]]
            self.known = {result.pop("image"): result for result in results}
        except (ValueError, KeyError, TypeError, AttributeError) as error:
            raise Fault(FILE_FAULT, f"{path}: this is no state of a run ({error})") from error
        if differing:
            raise Fault(WRONG_WORDS, f"{path}: the results are of another {', '.join(differing)}; name another folder, or remove this one")

    def _write(self, value):
        self.file.write(json.dumps(value, sort_keys=True) + "\n")
        self.file.flush()

    def add(self, name, result):
        super().add(name, result)
        try:
            self._write({"image": name, **result})
        except OSError as error:
            raise of_file(self.file.name, error) from error

    def close(self):
        try:
            self.file.close()
        except OSError:
            pass


def remove_tree(path):
    """Removes a folder, if it is there, with all that a checker may have left in it. Nothing outside it is touched."""
    if os.path.islink(path) or not os.path.isdir(path):
        with contextlib.suppress(OSError):
            os.unlink(path)
        return
    let_in(path)
    for folder, inner, _ in os.walk(path):
        for name in inner:
            let_in(os.path.join(folder, name))
    shutil.rmtree(path, ignore_errors=True)


def let_in(path):
    """Lets the owner into a folder. What a link leads to stays as it is."""
    with contextlib.suppress(OSError):
        if not os.path.islink(path):
            os.chmod(path, 0o700)
