"""The tree and its history: the answer of each command, the counts that it needs, and what follows it in the slices."""
from typing import NamedTuple

from . import making, reasons, writing
from .freeing import counts_of, passing
from .groups import State, domain_of
from .places import place_of
from .reasons import ACCEPTED, refused
from .writing import LINE_BYTES


class Outcome(NamedTuple):
    """What a command comes to: its answer, the domain and RMID of each count that it needs, and what follows it.

    What follows is `raise`, `flush` or `lock` with a domain and, of a lock, its mask and first line; `drop` with a domain and a line;
    and `access` with a domain, the number of the owner's group, RMID, mask and line.
    """

    answer: tuple[int, int]
    needs: list[tuple[int, int]]
    follows: list[tuple]


class Tree:
    """The tree after some commands."""

    def __init__(self, machine, tasks):
        self.machine = machine
        self.state = State(machine, tasks)
        self.places = {}

    def place(self, path):
        """What a path names; each is read once."""
        if path not in self.places:
            self.places[path] = place_of(path, self.machine.domains)
        return self.places[path]

    def against_region(self, op):
        """Why a touch or a clflush in a region is refused, or None."""
        found = self.state.region_of(self.place(op.path))
        if found is None:
            return refused(reasons.NO_SUCH_PATH)
        domain, region = found
        if op.offset >= self.machine.sets * region.mask.bit_count() * LINE_BYTES:
            return refused(reasons.PAST_REGION)
        if op.kind == "touch" and domain_of(self.machine, op.cpu) != domain:
            return refused(reasons.WRONG_CPU)
        return None

    def against(self, op):
        """Why a command is refused, or None."""
        place, state = self.place(op.path) if op.path else None, self.state
        if op.kind == "mkdir":
            return making.against_mkdir(state, place)
        if op.kind == "rmdir":
            return making.against_rmdir(state, place)
        if op.kind == "write":
            return writing.against_write(state, place, op.text)
        if op.kind in ("read", "list"):
            wanted = "file" if op.kind == "read" else "directory"
            return None if place.kind == wanted and state.has(place) else refused(reasons.NO_SUCH_PATH)
        return self.against_region(op) if op.kind in ("touch", "drop region") else None

    def needs(self, op):
        """The domain and the RMID of each count that an accepted command needs."""
        place, state = self.place(op.path) if op.path else None, self.state
        if op.kind == "rmdir":
            return counts_of(self.machine, making.freed_by_rmdir(state, place))
        if op.kind == "write" and place.name == "mode":
            return counts_of(self.machine, writing.freed_by_mode(state.group_at(place), op.text))
        if op.kind == "read" and place.name == "llc_occupancy":
            return [(place.domain, rmid) for rmid in state.rmids_with(state.group_at(place))]
        return counts_of(self.machine, state.limbo) if op.kind == "tick" else []

    def outcome(self, op):
        """What this command comes to, which the tree has not taken yet; what follows it is known when it has."""
        answer = self.against(op)
        return Outcome(answer or ACCEPTED, [] if answer else self.needs(op), [])

    def take(self, op, outcome, counts):
        """Takes a command with these counts, and answers what follows it."""
        place, state = self.place(op.path) if op.path else None, self.state
        if outcome.answer != ACCEPTED:
            if op.kind == "write" and place.name == "tasks" and state.has(place):
                writing.move_tasks(state, state.group_at(place), op.text, True)
            return []
        if op.kind == "mkdir":
            making.mkdir(state, place)
        elif op.kind == "rmdir":
            making.rmdir(state, place, counts)
            return [("raise", domain) for domain in range(self.machine.domains)]
        elif op.kind == "write":
            return self.write(op, place, counts)
        elif op.kind == "tick":
            state.limbo = passing(state, state.limbo, counts)
        return self.follows(op)

    def write(self, op, place, counts):
        """Writes a text, and answers what follows."""
        group = self.state.group_at(place)
        if place.name == "schemata":
            return writing.write_schemata(self.state, group, op.text)
        if place.name == "mode":
            return writing.write_mode(self.state, group, op.text, counts)
        if place.name == "tasks":
            writing.move_tasks(self.state, group, op.text, True)
        elif place.name in ("cpus", "cpus_list"):
            writing.write_cpus(self.state, group, place.name, op.text)
        else:
            self.state.threshold = int(op.text.strip(" \t"))
        return []

    def follows(self, op):
        """What follows a command that changes no group."""
        domains = range(self.machine.domains)
        if op.kind == "flush":
            return [("flush", domain) for domain in (domains if op.domain is None else [op.domain])]
        if op.kind == "drop":
            return [("drop", domain, op.cache_line(op.first)) for domain in domains]
        if op.kind in ("touch", "drop region"):
            domain, region = self.state.region_of(self.place(op.path))
            line = region.first_line + op.offset // LINE_BYTES
            if op.kind == "drop region":
                return [("drop", domain, line)]
            return [("access", domain_of(self.machine, op.cpu), *self.state.owned(op.task, op.cpu), line)]
        return []
