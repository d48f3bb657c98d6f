"""Where a clause is false, and why; and what all clauses are asked of."""
from dataclasses import dataclass

from .journal_lines import Journals
from .ops import Ops


@dataclass(frozen=True)
class Found:
    """A place where a clause is false, in words, and why it is."""

    place: str
    because: str


@dataclass
class Case:
    """A script and its journals: the machine, the declared tasks, the ops, and the journals."""

    machine: object
    tasks: list[int]
    ops: Ops
    journals: Journals

    def slices(self):
        """The number of each slice over all domains, with its entries."""
        return enumerate(self.journals.slices)

    def domain(self, number):
        """The domain of a slice."""
        return number // self.machine.slices

    def name(self, number):
        """A slice as a report names it."""
        domain, own = divmod(number, self.machine.slices)
        return f"slice {domain}.{own}"

    def slice_of(self, domain, line):
        """The number over all domains of the slice that a line has in a domain."""
        return domain * self.machine.slices + line % self.machine.sets % self.machine.slices

    def entry_line(self, number, position):
        """The line of the file at which an entry stands."""
        return self.journals.slice_lines[number] + position

    def at_entry(self, number, position, because):
        """An entry, as the place of a fault."""
        entry = self.journals.slices[number][position]
        of = f" of line {entry.rest[3]}" if entry.kind == "access" else f" of line {entry.rest[0]}" if entry.kind == "drop" else ""
        of = f" of RMID {entry.rest[0]}" if entry.kind == "look" else of
        made = f"{entry.kind} {entry.thread}.{entry.op}{of}"
        return Found(f"{self.name(number)} entry {position} (line {self.entry_line(number, position)}): {made}", because)

    def at_command(self, position, because):
        """An entry of the tree, as the place of a fault."""
        entry = self.journals.tree[position]
        op = self.ops.at(entry.thread, entry.op)
        words = f" `{shortened(op.words)}`" if op else ""
        return Found(f"tree entry {position} (line {self.journals.tree_line + position}): {entry.thread}.{entry.op}{words}", because)

    def at_op(self, thread, number, because):
        """An op of the script, as the place of a fault."""
        op = self.ops.at(thread, number)
        return Found(f"op {thread}.{number} (line {op.line} of the script): `{shortened(op.words)}`", because)


def shortened(words):
    """The words of an op; of a long one their beginning."""
    return words if len(words) <= 60 else words[:57] + "..."
