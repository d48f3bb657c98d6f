"""What a cache holds after each entry of its history: the lines of each group, and the masks in force.

Time is counted in entries of a cache's history, the one order that is the same for all who look at it. Entries of several slices, which
have no order between them, stand by their epochs. The masks are those that writes and accesses tell. A new group's first mask is in no
journal, so it is shown from the group's first access or write on.
"""
from collections import Counter
from dataclasses import dataclass
import re

from .entries import ACCESS, DROP, LOCK, merged

# So many commands have a moment of their own at most.
MOST_COMMANDS = 200


@dataclass(frozen=True)
class Moment:
    """The state after an entry: its number, each group's lines, each way's lines by group, the masks that are known, and the command."""

    at: int
    lines: Counter
    ways: tuple[Counter, ...]
    masks: dict[int, int]
    command: str


class Groups:
    """Which control groups there are after each command, and the masks that commands wrote."""

    def __init__(self, machine, report, domain):
        self.commands = report["commands"]
        self.domain = domain
        self.taken = 0
        self.gids = {"/": 0}
        self.count = 1
        self.masks = {0: 2**machine.ways - 1}

    def take(self, epoch):
        """Goes on to the state after so many commands."""
        while self.taken < epoch:
            command = self.commands[self.taken]
            self.taken += 1
            if command["result"].startswith("ok"):
                self.apply(command["words"])

    def apply(self, words):
        """What an accepted command does to the groups and their masks."""
        word, _, rest = words.partition(" ")
        if word == "mkdir" and rest.count("/") == 1:
            self.gids[rest] = self.count
            self.count += 1
        elif word == "rmdir" and rest.count("/") == 1:
            self.masks.pop(self.gids.pop(rest), None)
        elif found := re.fullmatch(r"write (.*)/schemata (.*)", words):
            masks = re.findall(r"(?<![0-9])0*([0-9]+)=(?:0[xX])?([0-9a-fA-F]+)", found[2])
            wanted = [int(mask, 16) for domain, mask in masks if int(domain) == self.domain]
            if wanted:
                self.masks[self.gid(found[1])] = wanted[0]

    def gid(self, path):
        return self.gids[path or "/"]


class Holders:
    """Which group filled each place of a cache."""

    def __init__(self, machine):
        self.machine = machine
        self.holder = {}
        self.lines = Counter()
        self.ways = [Counter() for _ in range(machine.ways)]

    def empty(self, place):
        if place in self.holder:
            gid = self.holder.pop(place)
            self.lines[gid] -= 1
            self.ways[place[1]][gid] -= 1

    def fill(self, place, gid):
        self.empty(place)
        self.holder[place] = gid
        self.lines[gid] += 1
        self.ways[place[1]][gid] += 1

    def empty_slice(self, part):
        for place in [place for place in self.holder if place[0] % self.machine.slices == part]:
            self.empty(place)

    def lock(self, part, mask, gid):
        """Empties a slice, and loads these ways of it."""
        self.empty_slice(part)
        for line_set in range(part, self.machine.sets, self.machine.slices):
            for way in range(self.machine.ways):
                if mask >> way & 1:
                    self.fill((line_set, way), gid)

    def copy(self):
        return +self.lines, tuple(+way for way in self.ways)


def follow(entry, groups, holders):
    """What an entry does to the places, and the words of its command where it is no access and no count."""
    if access := ACCESS.fullmatch(entry.what):
        gid, line_set, way = int(access[1]), int(access[3]), int(access[5])
        groups.masks[gid] = int(access[2], 16)
        if access[4] == "fill":
            holders.fill((line_set, way), gid)
        return ""
    if entry.what.startswith("look"):
        return ""
    words = groups.commands[entry.epoch - 1]["words"]
    if drop := DROP.fullmatch(entry.what):
        holders.empty((int(drop[1]) % holders.machine.sets, int(drop[2])))
    elif lock := LOCK.fullmatch(entry.what):
        holders.lock(entry.slice, int(lock[1], 16), groups.gid(words.split(" ")[1].removesuffix("/schemata")))
    elif entry.what == "flush":
        holders.empty_slice(entry.slice)
    return words


def is_command(entry):
    """Whether an entry is what a command does, and no count."""
    return not entry.what.startswith(("access", "look"))


def chosen(entries, most):
    """The numbers of about so many entries, spread evenly, of the last one, and of the first commands with the entry before each."""
    step = max(1, -(-len(entries) // most))
    commands = [at for at, entry in enumerate(entries) if is_command(entry)][:MOST_COMMANDS]
    return {*range(0, len(entries), step), len(entries) - 1, *commands, *(at - 1 for at in commands)}


def moments(machine, report, domain, most):
    """About so many moments of one cache, beside those of commands. An entry that only counts has none."""
    groups, holders, entries = Groups(machine, report, domain), Holders(machine), merged(report, domain)
    wanted = chosen(entries, most)
    for at, entry in enumerate(entries):
        groups.take(entry.epoch)
        command = follow(entry, groups, holders)
        if at in wanted and not entry.what.startswith("look"):
            yield Moment(at, *holders.copy(), dict(groups.masks), command)
