"""The simulator's lines as a kernel's counters: before each command, how many lines each group's RMID has in each domain.

A group's RMID is what the simulator looks at when its occupancy is read: so such a read is put after each command that may give a group
an RMID. A kernel's own number for it is read there from the file `mon_hw_id`, and the lines of an RMID are set by the group that had it
last, also after that group is gone.
"""
from bisect import bisect_right
from collections import Counter, defaultdict
from dataclasses import dataclass
import re

from resctrl_sim import play

from .scripts import NotComparable, places_of

READ = "mon_data/mon_L3_00/llc_occupancy"
ENTRY = re.compile(r"\d+ (\d+)\.(\d+) e\d+ (\w+)(.*)")
FILL = re.compile(r".* rmid (\d+) .* set (\d+) .* fill way (\d+)$")
LOOK = re.compile(r" rmid (\d+) lines \d+$")
LOCK = re.compile(r" mask ([0-9a-f]+) first \d+$")
DROP = re.compile(r" line (\d+) way (\d+)$")
ROOT = "/"
# A region's lines are counted here.
REGION_RMID = 0


@dataclass(frozen=True)
class Opening:
    """A read that was put after a line: of the group at a path, whose number in the guest is that of the read."""

    line: int
    path: str
    number: int


def lines_before(script, program):
    """The guest's lines that go before the command of each line of a script."""
    if any(line.split()[:1] == ["order"] for line in script.lines):
        raise NotComparable("threads that race have no one order in which counters could be set")
    lines, openings, origins = with_reads(script)
    report = play(lines, program=program, journal=True)
    events = events_of(report, places_of(lines))
    return Setting(script, openings).all(events, origins)


def with_reads(script):
    """The script with its reads of occupancy, what they are for by their lines, and the line of the script that each line was."""
    lines, openings, origins = [], {}, {}
    for number, line in enumerate(script.lines):
        origins[len(lines)] = number
        lines.append(line)
        words = line.split()
        if words[:1] == ["thread"] and not openings:
            add_read(lines, openings, ROOT, number)
        elif words[:1] == ["mkdir"]:
            add_read(lines, openings, words[1], number)
        elif words[:1] == ["write"] and words[1].endswith("/mode"):
            add_read(lines, openings, words[1].removesuffix("mode").rstrip("/") or ROOT, number)
    return lines, openings, origins


def add_read(lines, openings, path, number):
    openings[len(lines)] = Opening(number, path, len(openings))
    lines.append(f"read {path.rstrip('/')}/{READ}")


def events_of(report, places):
    """What the histories of all slices have, by the line that did it: the domain and the slice, what it was, and its numbers."""
    events, starts = defaultdict(list), sorted(places)
    for part in report.journal:
        for entry in part.entries:
            thread, op, verb, rest = ENTRY.fullmatch(entry).groups()
            # An op of a sweep is in the line of its first access.
            start = starts[bisect_right(starts, (int(thread), int(op))) - 1]
            events[places[start]].append(((part.domain, part.slice), verb, rest))
    return events


class Setting:
    """Follows the lines of all slices, and tells when a counter has to be set."""

    def __init__(self, script, openings):
        self.script = script
        self.openings = openings
        self.holders = defaultdict(dict)
        self.held = Counter()
        self.group_of = {}
        self.sent = Counter()

    def all(self, events, origins):
        """The guest's lines before each line."""
        before, waiting = {}, []
        played = {command.line for command in self.script.commands}
        for line in range(len(origins) + len(self.openings)):
            if origins.get(line) in played:
                before[origins[line]] = waiting + self.counters()
                waiting = []
            looked = [event for event in events[line] if event[1] == "look"]
            if line in self.openings and (rmids := {int(LOOK.match(rest)[1]) for _, _, rest in looked}) and len(rmids) == 1:
                opening = self.openings[line]
                self.group_of[rmids.pop()] = opening.number
                waiting.append(f"rmid {opening.number} {opening.path if opening.path != ROOT else '/.'}")
            for event in events[line]:
                self.follow(*event)
        return before

    def follow(self, part, verb, rest):
        """Takes in an entry of a slice's history."""
        if verb == "access" and (fill := FILL.match(rest)):
            rmid, row, way = map(int, fill.groups())
            self.hold(part, (row, way), rmid)
        elif verb == "flush":
            self.empty(part)
        elif verb == "lock":
            self.lock(part, int(LOCK.match(rest)[1], 16))
        elif verb == "drop" and (drop := DROP.match(rest)):
            number, way = map(int, drop.groups())
            self.leave(part, (number % self.script.machine.sets, way))

    def hold(self, part, place, rmid):
        """An RMID has the line in a place, and whoever had it before has not."""
        self.leave(part, place)
        self.holders[part][place] = rmid
        self.held[part[0], rmid] += 1

    def leave(self, part, place):
        rmid = self.holders[part].pop(place, None)
        if rmid is not None:
            self.held[part[0], rmid] -= 1

    def empty(self, part):
        for place in list(self.holders[part]):
            self.leave(part, place)

    def lock(self, part, mask):
        """A slice is emptied, and the region's lines are in the ways of the mask."""
        machine = self.script.machine
        self.empty(part)
        for row in range(part[1], machine.sets, machine.slices):
            for way in range(machine.ways):
                if mask >> way & 1:
                    self.hold(part, (row, way), REGION_RMID)

    def counters(self):
        """The guest's lines for what has changed."""
        counts = Counter()
        for (domain, rmid), number in self.held.items():
            if number:
                counts[domain, self.group_of[rmid]] += number
        changed = {key: counts[key] for key in counts.keys() | self.sent.keys() if counts[key] != self.sent[key]}
        self.sent.update({key: counts[key] - self.sent[key] for key in changed})
        return [f"lines {domain} {group} {number}" for (domain, group), number in sorted(changed.items())]
