"""Reads a script line by line, as docs/FORMAT.md says, and stops at the first line that is refused."""
from dataclasses import dataclass, field
import re

from . import limits
from .guesses import check_bytes, no_machine, unknown_word
from .lines import Refused, lines_of, refuse, words_of
from .machine import read_machine
from .numbers import decimal
from .ops import READERS, WHAT, USAGES, check_count
from .tasks import Tasks


# The usual form of an access, which needs no look at each word.
PLAIN_ACCESS = re.compile("access ([1-9][0-9]{0,9}) ([0-9]{1,2}) (?:[0-9]{1,14}|0x[0-9a-fA-F]{1,12})")


@dataclass
class Thread:
    """A thread: its number in the script, the line that opens it, and of each line of it the number of its first op."""

    number: int
    line: int
    ops: dict[int, int] = field(default_factory=dict)
    length: int = 0


@dataclass
class Phase:
    """A phase: the line that opens it, its order with the line of that, and its threads."""

    line: int
    order: list[int] | None = None
    order_line: int = 0
    threads: list[Thread] = field(default_factory=list)


@dataclass(frozen=True)
class Fault:
    """The first bad line, from 1, its text, and why it is refused. Line 0 is the script as a whole."""

    line: int
    text: str
    why: Refused

    def program_line(self):
        """What the program says of it."""
        return f"line {self.line}: {self.why.what}"


class Script:
    """What was read so far."""

    def __init__(self):
        self.machine = None
        self.tasks = Tasks()
        self.phases = []
        self.count = 0
        self.weight = 0
        self.after_phase = False

    def threads(self):
        return [thread for phase in self.phases for thread in phase.threads]

    def read_plain_access(self, line, at):
        """Reads an access of the usual form, where it is valid, and answers whether it did."""
        found = PLAIN_ACCESS.fullmatch(line)
        if not found or self.machine is None or not self.phases or not self.phases[-1].threads or self.weight >= limits.WEIGHT:
            return False
        if int(found[2]) >= self.machine.cpus or not self.tasks.has(int(found[1])):
            return False
        self.add(at, 1, 1)
        self.after_phase = False
        return True

    def read(self, line, at):
        """Reads one line."""
        if self.read_plain_access(line, at):
            return
        check_bytes(line, at)
        words = words_of(line)
        if not words or words[0].text.startswith("#"):
            return
        kind = words[0].text
        if self.machine is None and kind != "machine":
            no_machine(words[0])
        if kind not in USAGES and kind not in ("machine", "tasks"):
            unknown_word(words[0])
        after_phase, self.after_phase = self.after_phase, kind == "phase"
        if kind == "order":
            self.read_order(line, words, at, after_phase)
        elif kind in READERS:
            self.read_op(line, words, at)
        else:
            getattr(self, "read_" + kind)(line, words, at)

    def read_machine(self, line, words, at):
        if self.machine is not None:
            refuse("out of place", words[0], "there is a machine line already", "one machine for each script")
        self.machine = read_machine(words)

    def read_tasks(self, line, words, at):
        if self.phases:
            because = f"the first phase opened in line {self.phases[0].line}"
            refuse("out of place", words[0], because, "tasks are declared before the first phase")
        self.tasks.read(words, at)

    def read_phase(self, line, words, at):
        check_count(line, words, "phase", 1, 1)
        if len(self.phases) == limits.PHASES:
            refuse("script too large", words[0], f"a phase past the {limits.PHASES} that a script has at most")
        self.phases.append(Phase(at))

    def read_thread(self, line, words, at):
        if not self.phases:
            refuse("out of place", words[0], "no phase line yet", "a line `phase` before it")
        check_count(line, words, "thread", 1, 1)
        threads = self.phases[-1].threads
        if len(threads) == limits.THREADS:
            refuse("script too large", words[0], f"a thread past the {limits.THREADS} that a phase has at most")
        threads.append(Thread(self.count, at))
        self.count += 1

    def read_order(self, line, words, at, after_phase):
        if not after_phase:
            hint = "an order stands directly after its `phase`, and once" if self.phases else "no phase line yet"
            refuse("out of place", words[0], "the last line before it that has words is not `phase`", hint)
        check_count(line, words, USAGES["order"], 2, len(words))
        order = [decimal(WHAT, word, "thread") for word in words[1:]]
        for word, number in zip(words[1:], order):
            if number >= limits.ORDER_VALUES:
                refuse(WHAT, word, f"thread {word.text} is not below 2^32")
        if len(order) > limits.ORDER_NUMBERS:
            because = f"an order of {len(order)} numbers; {limits.ORDER_NUMBERS} at most"
            refuse("script too large", words[limits.ORDER_NUMBERS + 1], because)
        self.phases[-1].order, self.phases[-1].order_line = order, at

    def read_op(self, line, words, at):
        if not self.phases or not self.phases[-1].threads:
            because = "no thread line yet in this phase" if self.phases else "no phase line and no thread line yet"
            refuse("out of place", words[0], because, "a line `thread` before it" if self.phases else "`phase`, and then `thread`")
        weight = READERS[words[0].text](line, words, self.machine, self.tasks)
        if self.weight + weight > limits.WEIGHT:
            because = f"the weight of all ops is {self.weight + weight} by here, {weight} of them this line's; {limits.WEIGHT} at most"
            refuse("script too large", words[0], because, "a sweep weighs one for each of its accesses")
        self.add(at, weight, weight if words[0].text in ("access", "sweep") else 1)

    def add(self, at, weight, count):
        """Adds a line of so many ops to the open thread."""
        self.weight += weight
        thread = self.phases[-1].threads[-1]
        thread.ops[thread.length] = at
        thread.length += count


def first_fault(script, data):
    """Reads the lines of these bytes into a script of any kind, and gives the first fault, or None."""
    if len(data) > limits.SCRIPT_BYTES:
        return Fault(0, "", Refused("script too large", 0, 1, f"{len(data)} bytes; {limits.SCRIPT_BYTES} at most"))
    lines = lines_of(data)
    for at, line in enumerate(lines, 1):
        try:
            script.read(line, at)
        except Refused as why:
            return Fault(at, line, why)
    if script.machine is None:
        because = "no line says anything" if lines else "the script is empty"
        return Fault(len(lines) + 1, "", Refused("no machine line", 0, 1, because, "machine sets=64 ways=8, for example"))
    return None


def read_script(data):
    """The script of these bytes, or its first fault."""
    script = Script()
    return first_fault(script, data) or script
