"""Which groups there are after all commands of journals, and when each was exclusive on which masks."""
from dataclasses import dataclass, field

from judged.groups import EXCLUSIVE
from judged.tree import Tree


@dataclass
class Held:
    """A time in which a group was exclusive on the same masks: the first and the last epoch, and the flushes and locks in it."""

    path: str
    gid: int
    masks: tuple[int, ...]
    first: int
    last: int
    begun: int = 0


@dataclass
class Groups:
    """The control groups after the last command, each with its path, mode and masks, and the times of exclusive ones in order."""

    at_end: list[tuple[int, str, str, tuple[int, ...]]] = field(default_factory=list)
    held: list[Held] = field(default_factory=list)
    refused: int = 0


def exclusive_in(state):
    """The exclusive groups of a state by their numbers, each with its path and masks."""
    return {group.gid: (f"/{group.name}", tuple(group.masks)) for group in state.groups if group.parent is None and group.mode == EXCLUSIVE}


def noted(found, state, epoch):
    """Goes on with the state of an epoch."""
    now = exclusive_in(state)
    going = {one.gid: one for one in found.held if one.last == epoch - 1}
    for gid, (path, masks) in now.items():
        if gid in going and going[gid].masks == masks:
            going[gid].last = epoch
        else:
            found.held.append(Held(path, gid, masks, epoch, epoch))


def groups_of(case):
    """The groups of a run."""
    tree, found = Tree(case.machine, case.tasks), Groups()
    noted(found, tree.state, 0)
    for at, entry in enumerate(case.journals.tree):
        op = case.ops.at(entry.thread, entry.op)
        outcome = tree.outcome(op)
        found.refused += outcome.answer != (0, 0)
        tree.take(op, outcome, entry.counts)
        noted(found, tree.state, at + 1)
    own = [group for group in tree.state.groups if group.parent is None]
    found.at_end = [(group.gid, f"/{group.name}", group.mode, tuple(group.masks)) for group in own]
    for number, entries in case.slices():
        emptied = {entry.epoch for entry in entries if entry.kind in ("flush", "lock")}
        for one in found.held:
            one.begun += sum(one.first <= epoch <= one.last for epoch in emptied) if one.masks[case.domain(number)] else 0
    return found
