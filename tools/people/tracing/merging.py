"""Several traces as one list of accesses.

They come by turns in one thread. Threads with an order line would cost a number for each step, and say the same. A turn counts uses before
the first levels, since programs run side by side at the pace of their uses and not of their misses. Merging ends with the first trace that
ends, after which there is no ratio, unless the rest is asked for.

Addresses are shifted by whole regions of 4 GiB, numbered in order of first use: with a fixed shift for each trace, two or more would not
lie below 2^48. No cache has more sets than 4 GiB have lines, so each line keeps its set.
"""
from itertools import islice

from . import BadTrace

# Each 4 GiB of a trace, in lines of 64 bytes, and how many of them there are below 2^48.
REGION_LINES = 2**26
REGIONS = 2**16


class Lane:
    """The accesses of one trace: its task, how many of its uses are a turn, and the levels that they go through."""

    def __init__(self, task, share, trace, levels):
        self.task = task
        self.share = share
        self.levels = levels
        self.uses = trace.uses()
        self.taken = 0
        self.passed = 0
        self.has_ended = False

    def turn(self):
        """The lines of a turn's uses that go on to the L3, each with whether it is used as code."""
        before = self.taken
        for line, is_code in islice(self.uses, self.share):
            self.taken += 1
            if not self.levels.answer(line, is_code):
                self.passed += 1
                yield line, is_code
        self.has_ended = self.taken - before < self.share

    def has_more(self):
        """Whether a use is left, which is then lost."""
        return next(self.uses, None) is not None


class Regions:
    """Puts each 4 GiB of each trace into 4 GiB of its own, in order of first use. So no two traces share a line, and each line
    stays in its set, since no cache has more sets than 4 GiB have lines.
    """

    def __init__(self):
        self.places = {}

    def place(self, task, line):
        region, rest = divmod(line, REGION_LINES)
        place = self.places.setdefault((task, region), len(self.places))
        if place >= REGIONS:
            raise BadTrace(f"the traces use more than {REGIONS} regions of 4 GiB, and no more have addresses below 2^48")
        return place * REGION_LINES + rest


def turns(lanes, takes_rest):
    """The tasks and lines of the lanes, and whether each is used as code, turn by turn, until the first one has ended, or else all."""
    going = list(lanes)
    while going:
        for lane in list(going):
            for line, is_code in lane.turn():
                yield lane.task, line, is_code
            if lane.has_ended:
                if not takes_rest:
                    return
                going.remove(lane)


def accesses(lanes, takes_rest):
    """What comes turn by turn, each trace in regions of its own. Only several are shifted."""
    regions = Regions() if len(lanes) > 1 else None
    for task, line, is_code in turns(lanes, takes_rest):
        yield task, regions.place(task, line) if regions else line, is_code
