"""The order of steps that a report of a race tells: `order` lines with which `step` has to give the same report.

A command takes the tree, makes its looks, is decided, and makes what follows in the slices; an access tags while the tree is free, at
the epoch that its entry tells, and touches. So the entries say which steps must come before which. They are gone through in such an
order here: whatever can be done without taking the tree is done first, and then the next command takes it.
"""
import re
from collections import defaultdict, namedtuple

# What a journal's entry tells of its step: its slice, its position there, its epoch, and the RMID of a look, else None.
Entry = namedtuple("Entry", "slice position epoch rmid")

COMMAND = re.compile(r"\d+ (\d+)\.(\d+) ")
SLICE = re.compile(r"slice (\d+)\.(\d+)")
ENTRY = re.compile(r"(\d+) (\d+)\.(\d+) e(\d+) (?:look rmid (\d+))?")


class NoOrder(Exception):
    """No order of steps gives these journals."""


def parts_of(report):
    """The commands of a report in order, each as a thread and an op, and the entries of each thread and op."""
    commands, entries, here = [], defaultdict(list), None
    for line in report.splitlines():
        if line.startswith("|"):
            continue
        if line.startswith(("group ", "window ")):
            break
        if found := SLICE.fullmatch(line):
            here = tuple(map(int, found.groups()))
        elif here is None:
            commands.append(tuple(map(int, COMMAND.match(line).groups())))
        else:
            position, thread, op, epoch, rmid = ENTRY.match(line).groups()
            entries[int(thread), int(op)].append(Entry(here, int(position), int(epoch), rmid))
    return commands, entries


def steps_of(entries):
    """The steps of a command, each the entry that it makes, or None: it takes the tree, looks, is decided, and is followed.

    Looks go by RMID, and by slices for each; of the RMIDs the first slice that is looked at tells the order.
    """
    looks = sorted((entry for entry in entries if entry.rmid is not None), key=lambda it: (it.slice, it.position))
    rmids = list(dict.fromkeys(entry.rmid for entry in looks))
    looks.sort(key=lambda it: (rmids.index(it.rmid), it.slice))
    follows = sorted((entry for entry in entries if entry.rmid is None), key=lambda it: it.slice)
    return [None, *looks, None, *follows]


def phases_of(script):
    """The threads of each phase, numbered through the whole script."""
    phases, count = [], 0
    for line in script.splitlines():
        if line == "phase":
            phases.append([])
        elif line == "thread":
            phases[-1].append(count)
            count += 1
    return phases


class Replay:
    """How far the steps of a report have been gone through."""

    def __init__(self, report):
        self.commands, self.entries = parts_of(report)
        self.order_of = set(self.commands)
        self.next_op = defaultdict(int)
        self.next_position = defaultdict(int)
        self.tagged = {}
        self.taken = 0

    def can_make(self, entry):
        return self.next_position[entry.slice] == entry.position

    def make(self, entry):
        self.next_position[entry.slice] += 1

    def goes_on(self, thread):
        """The thread makes an access as far as it can, and says whether it took a step."""
        at = thread, self.next_op[thread]
        if at in self.order_of or at not in self.entries:
            return False
        entry = self.entries[at][0]
        if thread not in self.tagged:
            if entry.epoch != self.taken:
                return False
            self.tagged[thread] = entry
            return True
        if not self.can_make(entry):
            return False
        self.make(entry)
        del self.tagged[thread]
        self.next_op[thread] += 1
        return True

    def touches(self, threads):
        """What tagged threads can touch while another has the tree: the threads in order of their steps."""
        steps, moved = [], True
        while moved:
            moved = [thread for thread in threads if thread in self.tagged and self.goes_on(thread)]
            steps += moved
        return steps

    def accesses(self, threads):
        """All accesses that can be made while the tree is free."""
        steps, moved = [], True
        while moved:
            moved = [thread for thread in threads if self.goes_on(thread)]
            steps += moved
        return steps

    def command(self, threads):
        """The next command, with the touches that its entries wait for; none where it is of no thread of the phase."""
        if self.taken == len(self.commands):
            return []
        thread, op = self.commands[self.taken]
        if thread not in threads or self.next_op[thread] != op:
            return []
        steps = []
        for entry in steps_of(self.entries.get((thread, op), [])):
            if entry is not None:
                if not self.can_make(entry):
                    steps += self.touches(threads)
                if not self.can_make(entry):
                    raise NoOrder(f"command {thread}.{op} waits for an entry that cannot come before it")
                self.make(entry)
            steps.append(thread)
        self.taken += 1
        self.next_op[thread] += 1
        return steps

    def phase(self, threads):
        """The order of a phase."""
        steps, before = [], None
        while before != len(steps):
            before = len(steps)
            steps += self.accesses(threads)
            steps += self.command(threads)
        return steps

    def is_done(self):
        """Whether all that the report tells was gone through."""
        made = sum(self.next_position.values())
        return self.taken == len(self.commands) and made == sum(map(len, self.entries.values()))


def ordered(script, report):
    """The script with an `order` line in each phase, as the report tells. The script has none, and the report has the journals."""
    replay = Replay(report)
    orders = [replay.phase(threads) for threads in phases_of(script)]
    if not replay.is_done():
        raise NoOrder("an access waits for a command or an entry that cannot come before it")
    lines = []
    for line in script.splitlines():
        lines.append(line)
        if line == "phase" and (order := orders.pop(0)):
            lines.append("order " + " ".join(map(str, order)))
    return "".join(line + "\n" for line in lines)
