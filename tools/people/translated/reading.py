"""Reads a script of `resctrl_cdp` or `resctrl_l2` into its commands and its uses, in order."""
import re
from typing import NamedTuple

from bikhnoun.proved import explained_as
from bikhnoun.telling import Stopped
from explained.lines import words_of
from explained.numbers import number
from explained.ops import WHAT
from explained.pairs import USES, PairScript, read_into
from explained.reader import Fault
from resctrl_sim.programs import INVALID
from tracing import LINE_BYTES
from tracing.lackey import touched

# The usual form of a use, which needs no look at each word, and more than such a line uses.
PLAIN_USE = re.compile(r"(?:I | [LSM]) {1,2}[0-9a-fA-F]{1,11},[1-9][0-9]{0,2}")
PLAIN_USES = 64


class Command(NamedTuple):
    """A command: its line in the script, from 1, and the text of that; its word; and the group, empty for the default one, and the file
    that it names."""

    line: int
    text: str
    word: str
    group: str
    file: str


class Uses(NamedTuple):
    """Uses by a task on a CPU, as code or as data: so many, from an address on, each a stride after the one before."""

    task: int
    cpu: int
    is_code: bool
    address: int
    count: int
    stride: int


def command_of(line, at):
    """The command of a line that was read."""
    words = words_of(line)
    word, path = words[0].text, words[1].text if len(words) > 1 else ""
    group, _, file = path.rpartition("/") if word in ("read", "write") else (path, "", "")
    return Command(at, line.strip(" \t") if word != "write" else line.lstrip(" \t"), word, group, file)


class Recorded(PairScript):
    """A script that is read, with its commands and uses in order."""

    def __init__(self, kind):
        super().__init__(kind)
        self.head = []
        self.items = []
        self.task = self.cpu = 0

    def read(self, line, at):
        """Reads one line, and keeps what it says."""
        if self.trace_line and self.uses + PLAIN_USES < USES and PLAIN_USE.fullmatch(line):
            self.trace_use(line)
            return
        commands, uses = len(self.commands), self.uses
        super().read(line, at)
        if len(self.commands) > commands:
            self.items.append(command_of(line, at))
        elif self.uses > uses and self.trace_line:
            self.uses = uses
            self.trace_use(" ".join(line.split()))
        elif self.uses > uses:
            self.accesses(words_of(line))
        elif self.trace_line == at:
            self.task, self.cpu = (int(word.text) for word in words_of(line)[1:])
        elif line.split()[:1] in (["machine"], ["tasks"]):
            self.head.append(line)

    def trace_use(self, line):
        """Keeps the uses of a line of a trace: a modify is all loads, and then all stores."""
        kind, first, last = touched(line.encode("ascii"))
        count = last - first + 1
        times = 2 if kind == b"M" else 1
        self.uses += count * times
        if count == 1:
            self.keep(Uses(self.task, self.cpu, kind == b"I", first * LINE_BYTES, times, 0))
        else:
            self.items += [Uses(self.task, self.cpu, kind == b"I", first * LINE_BYTES, count, LINE_BYTES)] * times

    def accesses(self, words):
        """Keeps the uses of an `access` or a `sweep`."""
        task, cpu, address, *more = (number(WHAT, word, "") for word in words[1:])
        count, stride = more or (1, 0)
        self.keep(Uses(task, cpu, False, address, count, stride))

    def keep(self, uses):
        """Keeps uses; those of one line of memory that follow each other become one."""
        before = self.items[-1] if self.items else None
        if isinstance(before, Uses) and not before.stride and not uses.stride and before[:4] == uses[:4]:
            self.items[-1] = before._replace(count=before.count + uses.count)
        else:
            self.items.append(uses)


def read_recorded(data, name, kind):
    """The script of these bytes. Stopped says why it is invalid."""
    read = read_into(Recorded(kind), data)
    if isinstance(read, Fault):
        raise Stopped(f"{name}: {read.program_line()}{explained_as(kind).format(name)}", INVALID)
    return read
