"""Traces of valgrind's tool lackey (`--trace-mem=yes`).

Lines are `I  ADDR,SIZE` for an instruction, ` L ADDR,SIZE` for a load, ` S ADDR,SIZE` for a store and ` M ADDR,SIZE` for both,
with ADDR in hexadecimal digits and SIZE in bytes. What valgrind says of itself begins with `==`. Other lines are skipped: they are
what the program itself wrote to standard error.
"""
import os

from . import ADDRESS_END, LINE_BYTES

KINDS = (b"I", b"L", b"S", b"M")
# What lackey's own lines begin with, which need no look at each word.
USUAL = {b"I  ": b"I", b" L ": b"L", b" S ": b"S", b" M ": b"M"}
MOST_BYTES = 4096
SHELLS = ("ash", "bash", "busybox", "csh", "dash", "env", "fish", "ksh", "sh", "tcsh", "zsh")
FOLLOW = "--trace-children=yes --log-file=NAME.%p"


def parts_of(line):
    """The kind, the address and the size of a reference, as they stand there, and whether a comma is between the last two."""
    if kind := USUAL.get(line[:3]):
        address, comma, size = line[3:].partition(b",")
        return kind, address, comma, size
    kind, _, rest = line.strip().partition(b" ")
    return kind, *rest.strip().partition(b",")


def touched(line):
    """The kind of a reference, and the first and the last line of memory that it touches; None where it is none."""
    kind, address, comma, size = parts_of(line)
    if kind not in KINDS:
        return None
    try:
        first, count = int(address, 16), int(size)
    except ValueError:
        return None
    if not comma or first < 0 or not 1 <= count <= MOST_BYTES or first + count > ADDRESS_END:
        return None
    return kind, first // LINE_BYTES, (first + count - 1) // LINE_BYTES


def is_trace(line):
    """Whether a trace of lackey can begin with this line."""
    return line.startswith(b"==") or touched(line) is not None


def is_script(path):
    """Whether the file is a script, for which the system starts an interpreter."""
    try:
        with open(path, "rb") as file:
            return file.read(2) == b"#!"
    except OSError:
        return False


class Lackey:
    """A trace of lackey, and what valgrind said in it."""

    # Whether its uses are those that first levels have left.
    is_behind_levels = False

    def __init__(self, lines, with_code):
        self.lines = lines
        self.with_code = with_code
        self.commands = []
        self.has_end = False
        self.was_read = False

    def uses(self):
        """The lines of memory that the program uses, in order, each with whether it is used as code."""
        for line in self.lines:
            if line.startswith(b"I") and not self.with_code:
                continue
            found = touched(line)
            if found is None:
                self.hear(line)
                continue
            kind, first, last = found
            if first == last and kind != b"M":
                yield first, kind == b"I"
                continue
            for _ in range(2 if kind == b"M" else 1):
                for number in range(first, last + 1):
                    yield number, kind == b"I"
        self.was_read = True

    def hear(self, line):
        """Keeps what valgrind says of the program and of its end."""
        if not line.startswith(b"=="):
            return
        said = line.decode(errors="replace").split("== ", 1)[-1].strip()
        if said.startswith("Command:"):
            self.commands.append(said.removeprefix("Command:").strip())
        elif said.startswith("Exit code:"):
            self.has_end = True

    def warnings(self):
        """Why the trace may be another program's than was meant."""
        programs = [(command.split() or [""])[0] for command in self.commands]
        if len(programs) > 1:
            yield f"has the references of {len(programs)} programs, not told apart: give valgrind {FOLLOW}, and take the file of one"
        elif programs and os.path.basename(programs[0]) in SHELLS:
            yield f"is the trace of a shell, {programs[0]}, and not of what it starts: give valgrind the program itself, or {FOLLOW}"
        elif programs and is_script(programs[0]):
            yield f"is the trace of what runs the script {programs[0]}: give valgrind the program itself, or {FOLLOW}"
        if programs and self.was_read and not self.has_end:
            yield f"has no exit code at its end: it was cut, or the program became another, which valgrind follows with {FOLLOW}"
