"""The file that records the script of a mount.

Each operation is written at its end, by one call. The file is written whole, under another name, only where an operation takes the place
of the last, or a process is declared. Written whole each time, a record of ten thousand operations took a millisecond of each.
"""
from contextlib import suppress
import errno
import os


class NoRecord(Exception):
    """The file cannot be the record of this mount."""


class Record:
    """A file that always holds the script so far, in whole lines. Ops that come are written at its end; all else is written whole.

    An OSError of `add` or `replace` says that nothing was recorded: the file holds what it held before.
    """

    def __init__(self, path):
        self.path = path
        self.file = None
        # How many bytes are recorded, and whether the file may have more than these, of a write that failed halfway.
        self.size = 0
        self.is_torn = False

    def begin(self, script):
        """Makes the file, which was not there."""
        try:
            self.file = open(self.path, "xb", buffering=0)
        except FileExistsError as why:
            raise NoRecord(f"{self.path} is there already; --resume {self.path} goes on from it, --force makes it anew") from why
        try:
            self.append(script.encode("ascii"))
        except OSError:
            os.unlink(self.path)
            raise

    def add(self, ops):
        """Writes ops at the end, all of them or none."""
        self.append("".join(op + "\n" for op in ops).encode("ascii"))

    def append(self, data):
        """Writes bytes at the end. What a write left that failed halfway is cut off: at once, or else before the next write."""
        if self.is_torn:
            self.cut()
        try:
            write_all(self.file, data)
        except OSError:
            self.is_torn = True
            with suppress(OSError):
                self.cut()
            raise
        self.size += len(data)

    def cut(self):
        """Cuts the file back to what is recorded."""
        self.file.truncate(self.size)
        self.file.seek(self.size)
        self.is_torn = False

    def replace(self, script):
        """Writes the whole script: under another name first, so that the file is never without one."""
        beside, data = self.path + ".new", script.encode("ascii")
        file = open(beside, "wb", buffering=0)
        try:
            write_all(file, data)
            os.replace(beside, self.path)
        except OSError:
            file.close()
            with suppress(OSError):
                os.unlink(beside)
            raise
        if self.file:
            self.file.close()
        self.file, self.size, self.is_torn = file, len(data), False


class Unrecorded:
    """Where no file is asked for."""

    def begin(self, script):
        pass

    def add(self, ops):
        pass

    def replace(self, script):
        pass


def write_all(file, data):
    """Writes all of these bytes to an unbuffered file, which may take fewer at a time."""
    while data:
        count = file.write(data)
        if not count:
            raise OSError(errno.EIO, os.strerror(errno.EIO))
        data = data[count:]


def lines_of(path):
    """The lines of a record to go on from. They end in a phase of one thread, so that what comes next is played after all of them."""
    try:
        with open(path, encoding="ascii") as file:
            lines = file.read().splitlines()
    except OSError as why:
        raise NoRecord(f"{path}: {why.strerror}") from why
    except UnicodeDecodeError as why:
        raise NoRecord(f"{path} is not ASCII, as a script has to be") from why
    opened = [word for line in lines for word in line.split()[:1] if word in ("phase", "thread")]
    return lines if opened == ["phase", "thread"] else [*lines, "phase", "thread"]
