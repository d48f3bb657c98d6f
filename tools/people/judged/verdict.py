"""The first clause that is false of journals, by this reading, and where."""
from dataclasses import dataclass
import re

from explained.lines import lines_of
from explained.reader import Fault, read_script

from . import caches, counts, order, taken, truth
from .found import Case, Found
from .journal_reader import Reader
from .ops import Ops


@dataclass(frozen=True)
class Division:
    """The bytes of the script and of the journals, the lines of these after their first, what stands after the last newline, and how
    many lines of the file stand before."""

    script: bytes
    journals: bytes
    lines: list[str]
    rest: str
    before: int


def divided(data):
    """A file at its first line `journal 1`, or None where there is none. Its last line may lack its newline."""
    found = re.search(rb"^journal 1$", data, re.MULTILINE)
    if not found:
        return None
    before = data.count(b"\n", 0, found.start())
    script, journals = data[: found.start()], data[found.start() :]
    first, *lines = journals.decode("latin-1").split("\n")
    if not lines:
        return Division(script, journals, [], first, before)
    return Division(script, journals, lines[:-1], lines[-1], before + 1)


def case_of(data, division):
    """The script and the journals of a file. Raises BadLine; answers the fault of a script, or None where no journals follow."""
    script_bytes = division.script if division else data
    script = read_script(script_bytes)
    if isinstance(script, Fault) or division is None:
        return script if isinstance(script, Fault) else None
    reader = Reader(script.machine, script.weight, division.lines, division.before, division.rest)
    return Case(script.machine, sorted(script.tasks.declared), Ops(script, lines_of(script_bytes)), reader.read())


CLAUSES = (
    ("D11", lambda case, history: caches.histories(case)), ("D13.1", truth.accesses), ("D13.2", truth.others),
    ("D13.3", order.after_commands), ("D14", counts.looks), ("D15.2", counts.made), ("D15.3", order.marks), ("D15.4", order.entries),
)


def first_false(case):
    """The first clause that is false, and where; or None."""
    if found := taken.once(case):
        return "D15.1", found
    history = taken.History(case)
    if history.fault:
        return "D9", history.fault
    found = ((clause, ask(case, history)) for clause, ask in CLAUSES)
    return next(((clause, place) for clause, place in found if place), None)
