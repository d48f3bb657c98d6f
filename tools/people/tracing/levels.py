"""The first levels of the caches: what they hold does not go on to the L3."""
import re

from . import LINE_BYTES

UNITS = {"": 1, "K": 2**10, "M": 2**20}


class Level:
    """A cache of one level, whose sets each keep the lines that were used last."""

    def __init__(self, sets, ways):
        self.ways = ways
        self.sets = [[] for _ in range(sets)]

    def hits(self, line):
        """Uses a line, and says whether it was there."""
        held = self.sets[line % len(self.sets)]
        if held and held[-1] == line:
            return True
        if line in held:
            held.remove(line)
            held.append(line)
            return True
        if len(held) == self.ways:
            del held[0]
        held.append(line)
        return False


class Shape:
    """The size of a level, as the words `32K:8` give it: its bytes, and the ways of each set."""

    def __init__(self, text):
        found = re.fullmatch(r"(\d+)([KM]?):(\d+)", text)
        if not found:
            raise ValueError(text)
        size, self.ways = int(found[1]) * UNITS[found[2]], int(found[3])
        if self.ways == 0 or size == 0 or size % (LINE_BYTES * self.ways):
            raise ValueError(text)
        self.sets = size // (LINE_BYTES * self.ways)

    def level(self):
        return Level(self.sets, self.ways)


class FirstLevels:
    """An L1 for data, one of the same size for instructions, and an L2 for what misses in both. Each may be left out."""

    def __init__(self, first, second):
        self.data = first and first.level()
        self.code = first and first.level()
        self.second = second and second.level()

    def answer(self, line, is_code):
        """Uses a line, and says whether one of the levels has it."""
        first = self.code if is_code else self.data
        return bool(first and first.hits(line) or self.second and self.second.hits(line))
