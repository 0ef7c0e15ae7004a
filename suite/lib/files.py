"""Files: read whole, and written whole or not at all."""
import contextlib
import hashlib
import os
import pathlib
import stat
import tempfile

from faults import FILE_FAULT, Fault, of_file

MASK = os.umask(0)  # what is taken off the rights of new files; it can't be read but by setting it
os.umask(MASK)


def check_regular(path):
    """The path is a file that can be read to its end, and no pipe or device, which might have none."""
    try:
        mode = os.stat(path).st_mode
    except OSError as error:
        raise of_file(path, error) from error
    if not stat.S_ISREG(mode):
        raise Fault(FILE_FAULT, f"{path}: this is no regular file")


def read_bytes(path):
    """What a regular file has."""
    check_regular(path)
    try:
        return pathlib.Path(path).read_bytes()
    except OSError as error:
        raise of_file(path, error) from error


def read_text(path):
    """The same as a text; a byte that is not UTF-8 is shown by a sign."""
    return read_bytes(path).decode("utf-8", "replace")


def read_if_there(path):
    """The text of a file, or None where there is none of that name."""
    return read_text(path) if os.path.lexists(path) else None


def add_file(digest, path):
    """Adds the bytes of a file to a checksum, with their number; of a file that is not there a sign."""
    if not os.path.lexists(path):
        digest.update(b"-")
        return
    check_regular(path)
    try:
        with open(path, "rb") as file:
            own = hashlib.file_digest(file, "sha256") if hasattr(hashlib, "file_digest") else hashlib.sha256(file.read())
    except OSError as error:
        raise of_file(path, error) from error
    digest.update(own.digest())


@contextlib.contextmanager
def written_whole(path):
    """A file under another name, which gets this one when all of it is written; nothing is left of it where that fails. A device or a
    pipe of this name is written to as it is."""
    temporary = None
    try:
        if is_device(path):
            with open(path, "w", encoding="utf-8", errors="surrogateescape") as file:
                yield file
            return
        path = pathlib.Path(os.path.realpath(path))
        descriptor, temporary = tempfile.mkstemp(prefix=f".{path.name}.", dir=path.parent)
        with open(descriptor, "w", encoding="utf-8", errors="surrogateescape") as file:
            yield file
        os.chmod(temporary, 0o666 & ~MASK)
        os.replace(temporary, path)
        temporary = None
    except OSError as error:
        raise of_file(path, error) from error
    finally:
        if temporary is not None:
            with contextlib.suppress(OSError):
                os.unlink(temporary)


def is_device(path):
    """Whether there is something of this name that is no file and no folder."""
    return os.path.exists(path) and not os.path.isfile(path) and not os.path.isdir(path)


def write_whole(path, text):
    """Writes a text, whole or not at all."""
    with written_whole(path) as file:
        file.write(text)


def make_folder(path):
    """The folder is there from now on."""
    try:
        pathlib.Path(path).mkdir(parents=True, exist_ok=True)
    except OSError as error:
        raise of_file(path, error) from error
