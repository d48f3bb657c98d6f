"""Runs a proved program on a file, and passes on what it writes, byte for byte."""
import errno
import os
import selectors
import signal
import subprocess
import sys

from resctrl_sim import programs

from .progress import Progress
from .telling import Stopped, hint
from .workers import started

# A message of an invalid input is one short line: of that much output nothing is passed on until the exit status is known.
MESSAGE = 4096
CHUNK = 1 << 20
WAIT = 0.25


def opened(name):
    """The input: a file, or standard input for `-`. It is the program's own, which reads it without a copy."""
    if name == "-":
        if sys.stdin is None:
            raise Stopped("standard input is closed", programs.UNREAD)
        if sys.stdin.isatty():
            hint("reading standard input; Control+D ends it")
        return sys.stdin.buffer
    try:
        return open(name, "rb")
    except OSError as why:
        raise Stopped(f"{name}: {why.strerror}", programs.UNREAD) from None


def bytes_of(name):
    """All bytes of the input."""
    with opened(name) as file:
        return file.read()


def name_of(name):
    """The input, as messages name it."""
    return "standard input" if name == "-" else name


def share_done(file, worker, pace, spent):
    """Which share of its work a program has done, or None, and what it has read, in words. The place in a file is the program's and ours.

    One without a pace works while it reads. Of another the bytes that it does in a second are known, of an idle machine.
    """
    try:
        size, at = os.fstat(file.fileno()).st_size, os.lseek(file.fileno(), 0, os.SEEK_CUR)
    except OSError:
        size = at = 0
    if not size:
        return None, f"{taken(worker) >> 20} MB read"
    share = spent * pace / size if pace else at / size
    return share if share < 1 else None, f"{at >> 20} of {size >> 20} MB read" if at < size else "all is read"


def taken(worker):
    """How many bytes a program has read by now."""
    try:
        with open(f"/proc/{worker.pid}/io", encoding="ascii") as counts:
            return int(counts.readline().split()[1])
    except (OSError, ValueError, IndexError):
        return 0


def chunks(worker, file, pace, progress):
    """What the program writes, as it comes; meanwhile the line of progress is shown."""
    with selectors.DefaultSelector() as waiting:
        waiting.register(worker.stdout, selectors.EVENT_READ)
        while True:
            if not waiting.select(WAIT):
                progress.show(*share_done(file, worker, pace, progress.spent()))
            elif chunk := os.read(worker.stdout.fileno(), CHUNK):
                yield chunk
            else:
                return


def write(data):
    """Writes to standard output. Stopped says why that fails; a reader that has gone is none of our business."""
    try:
        left = memoryview(data)
        while left:
            left = left[os.write(sys.stdout.fileno(), left) :]
    except BrokenPipeError:
        raise
    except OSError as why:
        cause = "no space is left on its device" if why.errno == errno.ENOSPC else why.strerror
        raise Stopped(f"standard output: {cause}", programs.UNWRITTEN) from None


def pass_on(worker, file, pace, progress):
    """Passes on the output and gives the exit status, with the message where the program wrote nothing but that."""
    kept, is_open = b"", False
    for chunk in chunks(worker, file, pace, progress):
        progress.end()
        if is_open:
            write(chunk)
            continue
        kept += chunk
        if len(kept) > MESSAGE:
            write(kept)
            kept, is_open = b"", True
    status = worker.wait()
    if status not in (programs.INVALID, programs.USAGE):
        write(kept)
        kept = b""
    return status, kept.decode("ascii", "replace").strip()


def terminated(number, frame):
    """Ends this with its program, which is none of the same terminal's if somebody sends a signal to this alone."""
    raise SystemExit(128 + number)


def call(name, words, source, *, doing, pace=None, after=""):
    """Runs a program by these words on a file, and returns its exit status; what went wrong is told on standard error.

    doing  what it does, for the line of progress
    pace   how many bytes of input it does in a second, or None where it works while it reads
    after  what is said after the message of an invalid input, with {} for its name
    """
    path, file = programs.required(name), opened(source)
    signal.signal(signal.SIGTERM, terminated)
    progress = Progress(doing)
    try:
        with started([path, *words], stdin=file, stdout=subprocess.PIPE) as worker:
            status, message = pass_on(worker, file, pace, progress)
    except PermissionError as why:
        raise Stopped(f"{path}: {why.strerror}", programs.UNREAD) from None
    finally:
        progress.end()
    if message:
        raise Stopped(f"{name_of(source)}: {message}{after.format(source)}" if status == programs.INVALID else message, status)
    if status not in (0, programs.NO):
        raise Stopped(programs.ended(name, status), status if status > 0 else 128 - status)
    return status
