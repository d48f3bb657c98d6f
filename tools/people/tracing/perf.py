"""Samples of `perf mem record`, as `perf script -F addr,data_src` prints them.

A line is an address in hexadecimal digits and, where `data_src` was asked for, the value that says what level of the caches
answered, with perf's own words for it. The bits of that value are those of `union perf_mem_data_src` in `linux/perf_event.h`.
"""
import re

from . import ADDRESS_END, LINE_BYTES, BadTrace

SAMPLE = re.compile(rb"\s*([0-9a-f]+)(?:\s+([0-9a-f]+) \|OP .*)?\s*")
# PERF_MEM_LVL_SHIFT, and in the 14 bits from there on: a hit, the first level, the line fill buffer, the second level.
LEVEL_SHIFT = 5
HIT, L1, FILL_BUFFER, L2 = 0x02, 0x08, 0x10, 0x20


def is_trace(line):
    """Whether samples can begin with this line."""
    return SAMPLE.fullmatch(line) is not None


def is_answered(source):
    """Whether a cache before the L3 had the line."""
    level = source >> LEVEL_SHIFT
    return bool(level & HIT and level & (L1 | FILL_BUFFER | L2))


class Samples:
    """Samples of a program's loads and stores."""

    is_behind_levels = False

    def __init__(self, lines, name):
        self.lines = lines
        self.name = name
        self.answered = 0
        self.outside = 0

    def uses(self):
        """The lines of memory that the L3 was asked for, in order; none of them is known as code."""
        for number, line in enumerate(self.lines, 1):
            if not line.strip():
                continue
            sample = SAMPLE.fullmatch(line)
            if not sample:
                raise BadTrace(f"{self.name}: line {number} is not a sample of perf script -F addr,data_src")
            address = int(sample[1], 16)
            if sample[2] and is_answered(int(sample[2], 16)):
                self.answered += 1
            elif not 0 < address < ADDRESS_END:
                self.outside += 1
            else:
                yield address // LINE_BYTES, False

    def warnings(self):
        """What was left out, and what samples are not."""
        yield "has samples: of the uses between two of them nothing is known, so hits and misses are not those of the program"
        if self.answered:
            yield f"has {self.answered} samples that the first levels of the machine answered: they are left out"
        if self.outside:
            yield f"has {self.outside} samples without an address, or with one past 2^48, as the kernel's are: they are left out"
