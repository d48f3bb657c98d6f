"""In how many minutes crates are proved on this many processors."""
import heapq
import os
from functools import cached_property
from pathlib import Path

TABLE = Path(__file__).resolve().parent / "seconds.table"
# The seconds that are assumed of a crate that the table does not have, and those before the first proof.
UNKNOWN, START = 60, 35


def read_crates(top):
    """What each crate of crates.txt uses of the repository."""
    lines = [line for line in (top / "crates.txt").read_text().splitlines() if ":" in line and not line.startswith("#")]
    named = {line.split(":")[0].split()[0]: line.split(":")[1].split() for line in lines}
    return {name: [each for each in uses if each in named] for name, uses in named.items()}


def read_table():
    rows = [line.split() for line in TABLE.read_text().splitlines() if line and not line.startswith("#")]
    return {name: int(seconds) for name, seconds in rows}


class Schedule:
    """The crates to be proved: all, or those that some programs need. A crate waits for those that it uses, and the one with the longest
    chain of others behind it goes first."""

    def __init__(self, top, programs=(), processors=0):
        self.uses, self.programs, self.table = read_crates(top), list(programs), read_table()
        self.processors = processors or len(os.sched_getaffinity(0))
        self.crates = self.below(self.programs) if self.programs else set(self.uses)

    def below(self, programs):
        """These programs and all crates that they need."""
        found, left = set(), list(programs)
        while left:
            name = left.pop()
            if name in self.uses and name not in found:
                found.add(name)
                left += self.uses[name]
        return found

    def seconds(self, name):
        return self.table.get(name, UNKNOWN)

    @cached_property
    def chains(self):
        """The seconds from the start of a crate's proof to the end of the last one that waits for it."""
        behind = dict.fromkeys(self.uses, 0)
        # crates.txt has a crate below those that it uses.
        for name in reversed(list(self.uses)):
            behind[name] += self.seconds(name)
            for used in self.uses[name]:
                behind[used] = max(behind[used], behind[name])
        return behind

    def minutes(self, left):
        """In how many minutes each program that is left is proved, and (under None) all that is left."""
        running, now, ends, waiting = [], START if left == self.crates else 0, {}, set(left)
        while waiting or running:
            for name in sorted(waiting, key=lambda each: -self.chains[each]):
                if len(running) < self.processors and not any(used in left and used not in ends for used in self.uses[name]):
                    heapq.heappush(running, (now + self.seconds(name), name))
                    waiting.remove(name)
            now, name = heapq.heappop(running)
            ends[name] = now
        return {None: now / 60} | {name: ends[name] / 60 for name in self.programs if name in ends}
