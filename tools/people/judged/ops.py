"""The ops of a script, by their threads and numbers."""
from bisect import bisect_right
import re
from typing import NamedTuple

from explained.lines import words_of
from explained.numbers import value_of
from explained.paths import read_text

LINE_BYTES = 64


class Op(NamedTuple):
    """A line of a thread: what it does, its line in the script, its words, and the number of its first op in its thread.

    A sweep is an access with a count and a stride. A clflush of an address is a `drop`, and one of a path a `drop region`.
    """

    kind: str
    line: int
    words: str
    first: int
    task: int = 0
    cpu: int = 0
    address: int = 0
    stride: int = 0
    path: str = ""
    text: str = ""
    offset: int = 0
    domain: int | None = None

    @property
    def is_access(self):
        """Whether the op is an access, and no command of the tree."""
        return self.kind == "access"

    def cache_line(self, op):
        """The line of memory that this op of an access or a clflush names."""
        return (self.address + (op - self.first) * self.stride) // LINE_BYTES


def number(text):
    """A number that is decimal, or hexadecimal after 0x."""
    return int(text, 16) if re.match("0[xX]", text) else value_of(text)


def op_of(line, at, first):
    """The op of a line of a thread that the reader of scripts has accepted."""
    kind, *rest = line.split()
    shown = " ".join([kind, *rest])
    if kind in ("access", "sweep"):
        stride = number(rest[4]) if kind == "sweep" else 0
        return Op("access", at, shown, first, task=value_of(rest[0]), cpu=value_of(rest[1]), address=number(rest[2]), stride=stride)
    if kind == "touch":
        return Op(kind, at, shown, first, path=rest[0], offset=number(rest[1]), task=value_of(rest[2]), cpu=value_of(rest[3]))
    if kind == "clflush":
        if rest[0].startswith("/"):
            return Op("drop region", at, shown, first, path=rest[0], offset=number(rest[1]))
        return Op("drop", at, shown, first, address=number(rest[0]))
    if kind == "flush":
        return Op(kind, at, shown, first, domain=value_of(rest[0]) if rest else None)
    if kind == "write":
        path = words_of(line)[1]
        start = path.start + len(path.text) + 1
        return Op(kind, at, line.strip(" \t"), first, path=path.text, text=read_text(line[start:], start))
    return Op(kind, at, shown, first, path=rest[0] if rest else "")


class Ops:
    """The ops of all threads of a script, with the phase of each thread."""

    def __init__(self, script, lines):
        self.firsts, self.ops, self.lengths, self.phases = [], [], [], []
        for phase, opened in enumerate(script.phases):
            for thread in opened.threads:
                self.firsts.append(list(thread.ops))
                self.ops.append([op_of(lines[at - 1], at, first) for first, at in thread.ops.items()])
                self.lengths.append(thread.length)
                self.phases.append(phase)

    def at(self, thread, op):
        """The op of this number in this thread, or None."""
        if thread >= len(self.lengths) or op >= self.lengths[thread]:
            return None
        return self.ops[thread][bisect_right(self.firsts[thread], op) - 1]

    def commands(self):
        """The thread, the number and the op of each command, in the order of the script."""
        for thread, ops in enumerate(self.ops):
            yield from ((thread, op.first, op) for op in ops if not op.is_access)

    def each(self):
        """The thread, the number and the op of each op, in the order of the script."""
        for thread, ops in enumerate(self.ops):
            ends = [*self.firsts[thread][1:], self.lengths[thread]]
            for op, end in zip(ops, ends):
                yield from ((thread, number, op) for number in range(op.first, end))

    def accesses(self):
        """How many accesses there are."""
        return sum(self.lengths) - sum(1 for _ in self.commands())
