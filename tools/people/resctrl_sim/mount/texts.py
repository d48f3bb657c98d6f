"""What is written to a file of the tree: which text of a script it is, or why it is none."""
from dataclasses import dataclass
import errno
import os
import re

from fusepy import FuseOSError

# What a text of a script can hold besides a newline, which it has as an escape.
TEXT_BYTES = frozenset(b"\t") | frozenset(range(0x20, 0x7F))
NEWLINE = 0x0A
MOST_BYTES = 4096
# The files of a group whose text a kernel takes with its newline alone.
NEEDS_NEWLINE = ("schemata", "mode")


@dataclass
class Handle:
    """An open file: what was read of it, and the write that a next piece goes on with. `stat` is what was told of it last."""

    path: str
    stat: dict
    text: bytes = b""
    written: bytes = b""
    offset: int = 0
    count: int = 0

    @property
    def is_cut(self):
        """Whether the last write ended within a line."""
        return bool(self.written) and not self.written.endswith(b"\n")


class Refused(FuseOSError):
    """The mount itself refuses, since no script can hold this: with an error and, for `last_cmd_status`, its cause."""

    def __init__(self, number, cause=None):
        super().__init__(number)
        self.cause = cause


def op_of(path, written):
    """The op of what was written to a file."""
    text = written.removesuffix(b"\n")
    if os.path.basename(path) == "cpus":
        # A kernel passes over commas at the end of a CPU mask, and pqos writes one.
        text = text.rstrip(b",") or text
    if len(text) > MOST_BYTES:
        raise Refused(errno.E2BIG, f"text has more than {MOST_BYTES} bytes")
    if not all(byte in TEXT_BYTES or byte == NEWLINE for byte in text):
        raise Refused(errno.EINVAL, "text has a byte that is not printed")
    return f"write {path} {escaped(text)}"


def escaped(text):
    """A written text as a script has it."""
    return text.decode("ascii").replace("\\", "\\\\").replace("\n", "\\n")


def unescaped(text):
    """What a script's text stands for."""
    return re.sub(r"\\(.)", lambda found: "\n" if found[1] == "n" else found[1], text)


def require_whole(path, written, is_rest):
    """Refuses, as a kernel does, the text of a mask or a mode that lacks its newline, and the rest of a text. There is no cause then."""
    lacks_newline = os.path.basename(path) in NEEDS_NEWLINE and not written.endswith(b"\n")
    if lacks_newline or is_rest:
        raise Refused(errno.EINVAL)
