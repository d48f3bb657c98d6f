"""The tree's list: whether each command is in it once, what each comes to, and what it owes to the slices."""
from collections import Counter, defaultdict

from .reasons import text_of
from .tree import Tree


def once(case):
    """The first command that the tree has taken twice, or never, or None."""
    counts, found = Counter(), {}
    commands = {(thread, number) for thread, number, _ in case.ops.commands()}
    for at, entry in enumerate(case.journals.tree):
        made = (entry.thread, entry.op)
        counts[made] += 1
        if made in commands and counts[made] == 2:
            before = case.journals.tree_line + found[made]
            return case.at_command(at, f"the tree has taken it before, in line {before}")
        found.setdefault(made, at)
    missing = next((op for op in case.ops.commands() if not counts[op[:2]]), None)
    return missing and case.at_op(missing[0], missing[1], "the tree's list has no line for it")


def queries_of(case):
    """By its epoch, the task and the CPU of each access of the slices."""
    queries, length = defaultdict(set), len(case.journals.tree)
    for _, entries in case.slices():
        for entry in entries:
            if entry.kind == "access" and entry.epoch <= length:
                op = case.ops.at(entry.thread, entry.op)
                if op and op.is_access:
                    queries[entry.epoch].add((op.task, op.cpu))
    return queries


class History:
    """The tree's list, played: what each command owes, its position by its op, and whose the accesses of each epoch are."""

    def __init__(self, case):
        self.case = case
        self.needs, self.follows, self.positions, self.owned = [], [], {}, {}
        self.fault = self.play()

    def play(self):
        """Plays the list, and answers its first entry that cannot follow those before it, or None."""
        case, queries = self.case, queries_of(self.case)
        tree = Tree(case.machine, case.tasks)
        self.resolve(tree, 0, queries)
        for at, entry in enumerate(case.journals.tree):
            op = case.ops.at(entry.thread, entry.op)
            if op is None:
                return case.at_command(at, "the script has no such op")
            if op.is_access:
                return case.at_command(at, "this is an access, and the tree takes commands alone")
            outcome = tree.outcome(op)
            if entry.answer != outcome.answer:
                return case.at_command(at, f"the tree answers `{text_of(outcome.answer)}`, and not `{text_of(entry.answer)}`")
            if len(entry.counts) != len(outcome.needs):
                return case.at_command(at, f"it needs {len(outcome.needs)} counts, and was given {len(entry.counts)}")
            self.needs.append(outcome.needs)
            self.positions[entry.thread, entry.op] = at
            self.follows.append(tree.take(op, outcome, entry.counts))
            self.resolve(tree, at + 1, queries)
        return None

    def resolve(self, tree, epoch, queries):
        """Whose the accesses of an epoch are."""
        for task, cpu in queries.get(epoch, ()):
            self.owned[epoch, task, cpu] = tree.state.owned(task, cpu)

    def owed(self, position, number):
        """The entries that a command owes to a slice, in order: their epoch, kind, and numbers but for what the slice decides."""
        domain, machine = self.case.domain(number), self.case.machine
        for wanted, rmid in self.needs[position]:
            if wanted == domain:
                yield position, "look", (rmid,)
        for kind, wanted, *numbers in self.follows[position]:
            if wanted == domain and (kind in ("raise", "flush", "lock") or numbers[-1] % machine.sets % machine.slices == number % machine.slices):
                yield position + 1, kind, tuple(numbers)


def paid(entry):
    """What an entry pays: its epoch, kind, and numbers but for what the slice decides."""
    cut = {"access": 4, "look": 1, "drop": 1}.get(entry.kind, len(entry.rest))
    return entry.epoch, entry.kind, entry.rest[:cut]
