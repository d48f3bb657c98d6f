"""The files below `.sim`, which are not listed: the script, its report, its journals, and the accesses of tasks."""
import errno
import stat

from fusepy import FuseOSError

from ..hints import because
from ..program import Broken, Checker
from .kinds import below
from .texts import Refused

FOLDER = "/.sim"
SCRIPT = "/.sim/script"
REPORT = "/.sim/report"
JOURNAL = "/.sim/journal"
ACCESS = "/.sim/access"

MODES = {
    FOLDER: stat.S_IFDIR | 0o755,
    SCRIPT: stat.S_IFREG | 0o444,
    REPORT: stat.S_IFREG | 0o444,
    JOURNAL: stat.S_IFREG | 0o444,
    ACCESS: stat.S_IFREG | 0o644,
}

# The ops that are no operation of a client on a file: what tasks, time and the flushes of caches and lines do.
WORDS = ("access", "sweep", "touch", "flush", "clflush", "tick")


def is_extra(path):
    """Whether a path is `.sim` or below it."""
    return below(path, FOLDER)


def read(recording, path):
    """The text of such a file."""
    texts = {SCRIPT: recording.script, REPORT: lambda: recording.report, JOURNAL: lambda: journal(recording), ACCESS: str}
    return texts[path]()


def journal(recording):
    """The script with its journals, by the checker."""
    try:
        return Checker().export(recording.script())
    except Broken as why:
        raise FuseOSError(errno.ENOSYS) from why


def ops_of(lines):
    """The ops in lines for `.sim/access`. A Refused tells of the first that is none."""
    try:
        ops = [line for line in lines.decode("ascii").splitlines() if line.strip()]
    except UnicodeDecodeError as why:
        raise Refused(errno.EINVAL, "a line has a byte that is not ASCII") from why
    for op in ops:
        if op.split()[0] not in WORDS:
            raise Refused(errno.EINVAL, f"{op.split()[0]} is none of {', '.join(WORDS)}")
    return ops


def cause_of(recording, ops, why):
    """Why the program does not take these ops: the one that is meant, and what is wrong with it."""
    at = why.line - 1 - len(recording.script().splitlines())
    told = ": ".join([why.what, *because(recording.script(ops), why)])
    return f"{ops[at]}: {told}" if 0 <= at < len(ops) else told
