"""Whether the list of each slice is a history of a cache, and else its first entry that cannot follow those before it."""
from collections import Counter


FLOORS = ("raise", "flush", "lock")


class Cache:
    """What a slice holds after some entries: in each set that was used, for each way a line, its RMID and its last use, or None; and
    the way of each line there."""

    def __init__(self, machine):
        self.machine = machine
        self.sets, self.ways, self.masks = {}, {}, {}
        self.counts = Counter()
        self.loaded = None
        self.floor = self.floor_at = 0

    def places(self, line):
        """The ways of the set of a line."""
        number = line % self.machine.sets
        if number not in self.sets:
            self.sets[number] = self.at_first(number)
        return self.sets[number]

    def at_first(self, number):
        """The ways of a set that no entry since the last flush or lock has used: empty, or loaded with lines of a region."""
        places = [None] * self.machine.ways
        if self.loaded:
            mask, first, at = self.loaded
            for rank, way in enumerate(self.ways_of(mask)):
                places[way] = (first + number + rank * self.machine.sets, 0, at)
                self.ways[places[way][0]] = way
        return places

    def empty(self, loaded=None):
        """Empties every way, and loads those of a mask with a region's lines where there is one."""
        self.sets.clear()
        self.ways.clear()
        self.counts.clear()
        self.loaded = loaded
        if loaded:
            self.counts[0] = loaded[0].bit_count() * (self.machine.sets // self.machine.slices)

    def way_of(self, line):
        """The way that holds a line, or None."""
        if self.loaded and line % self.machine.sets not in self.sets:
            self.places(line)
        return self.ways.get(line)

    def ways_of(self, mask):
        """The ways of a mask, rising."""
        if mask not in self.masks:
            self.masks[mask] = [way for way in range(self.machine.ways) if mask >> way & 1]
        return self.masks[mask]

    def leave(self, line, way):
        """Empties a way of the set of a line."""
        places = self.places(line)
        if places[way]:
            held, rmid, _ = places[way]
            self.counts[rmid] -= 1
            del self.ways[held]
            places[way] = None

    def fill(self, line, way, rmid, at):
        """Fills a way."""
        self.leave(line, way)
        self.counts[rmid] += 1
        self.ways[line] = way
        self.places(line)[way] = (line, rmid, at)

    def victim(self, line, mask):
        """The way that a fill takes, and why it is that one."""
        places = self.places(line)
        ways = self.ways_of(mask)
        for way in ways:
            if places[way] is None:
                return way, "way {} is the lowest of mask {:x} that is empty"
        _, way = min([(places[way][2], way) for way in ways])
        return way, "way {} was used longest ago, and no way of mask {:x} is empty"

    def against(self, entry):
        """Why an entry cannot follow those before it, or None."""
        if entry.kind != "look" and entry.epoch < self.floor:
            return f"its epoch {entry.epoch} is stale: entry {self.floor_at} has set the floor to {self.floor}"
        if entry.kind == "access":
            return self.against_access(entry)
        if entry.kind == "look":
            rmid, lines = entry.rest
            return None if lines == self.counts[rmid] else f"it counts {lines}, and {self.counts[rmid]} are there"
        if entry.kind == "drop":
            line, said = entry.rest
            way = self.way_of(line)
            if said != way:
                return f"it is in {'no way' if way is None else f'way {way}'}, and not in {'none' if said is None else f'way {said}'}"
        return None

    def against_access(self, entry):
        """Why an access cannot follow, or None."""
        _, _, mask, line, hit, said = entry.rest
        way = self.way_of(line)
        if way is not None:
            if not hit:
                return f"it is in way {way}, so it hits"
            return None if said == way else f"it hits in way {way}, and not in way {said}"
        if hit:
            return "no way holds it, so it misses"
        wanted, why = self.victim(line, mask)
        return None if said == wanted else f"it fills way {wanted}, and not way {said}: {why.format(wanted, mask)}"

    def take(self, entry, at):
        """Goes on behind an entry that may follow."""
        if entry.kind in FLOORS and entry.epoch >= self.floor:
            self.floor, self.floor_at = entry.epoch, at
        if entry.kind == "access":
            _, rmid, _, line, hit, way = entry.rest
            if hit:
                places = self.places(line)
                places[way] = (line, places[way][1], at)
            else:
                self.fill(line, way, rmid, at)
        elif entry.kind == "flush":
            self.empty()
        elif entry.kind == "lock":
            self.empty((*entry.rest, at))
        elif entry.kind == "drop" and entry.rest[1] is not None:
            self.leave(*entry.rest)


def histories(case):
    """The first entry of a slice that cannot follow those before it, or None."""
    for number, entries in case.slices():
        cache = Cache(case.machine)
        for at, entry in enumerate(entries):
            if because := cache.against(entry):
                return case.at_entry(number, at, because)
            cache.take(entry, at)
    return None
