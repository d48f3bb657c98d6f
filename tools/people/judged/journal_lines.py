"""The lines of journals after `journal 1`, as docs/JOURNALS.md has them, and what is wrong with the first that is none."""
from dataclasses import dataclass, field
import re
from typing import NamedTuple

from .reasons import TEXTS
from .texts import NUMBERS, mask_fault

# A number of more digits is past every limit.
NUMBER = "(0|[1-9][0-9]{0,19})"
# Each kind of entry with the names of its numbers.
FIELDS = {
    "access": ("thread", "op", "epoch", "group", "rmid", "mask", "line", "hit", "way"), "raise": ("thread", "op", "epoch"),
    "flush": ("thread", "op", "epoch"), "lock": ("thread", "op", "epoch", "mask", "line"),
    "look": ("thread", "op", "epoch", "rmid", "lines"), "drop": ("thread", "op", "epoch", "line", "way"),
}
PATTERNS = {kind: re.compile(" ".join([kind, *[NUMBER] * len(names)])) for kind, names in FIELDS.items()}
PATTERNS["drop"] = re.compile(f"drop {NUMBER} {NUMBER} {NUMBER} {NUMBER} {NUMBER[:-1]}|-)")
TREE = re.compile(f"tree((?: {NUMBER})+)")
SLICE = re.compile(f"slice {NUMBER} {NUMBER} {NUMBER}")
# The first number past the range of a field; those of ways, masks and hits are tested by the machine.
LIMITS = {
    "thread": 2**32, "op": 2**32, "epoch": NUMBERS, "group": 2**32, "rmid": 2**16, "line": 2**53, "lines": NUMBERS, "hit": 2,
    "reason": len(TEXTS) + 1, "argument": NUMBERS, "count": NUMBERS,
}


class BadLine(Exception):
    """The first bad line, counted through the file, its text, and what is wrong with it."""

    def __init__(self, line, text, because):
        super().__init__(because)
        self.line = line
        self.text = text
        self.because = because


class TreeEntry(NamedTuple):
    """A command that the tree took: its thread and op, its answer, and the counts that it was given."""

    thread: int
    op: int
    answer: tuple[int, int]
    counts: tuple[int, ...]


class Entry(NamedTuple):
    """An entry of a slice: its kind, thread, op and epoch, and its other numbers as their line has them, None for a dash."""

    kind: str
    thread: int
    op: int
    epoch: int
    rest: tuple


@dataclass
class Journals:
    """The journals: the tree's list with the line of its first entry, and for each slice its list with the line of its first."""

    tree: list[TreeEntry] = field(default_factory=list)
    tree_line: int = 0
    slices: list[list[Entry]] = field(default_factory=list)
    slice_lines: list[int] = field(default_factory=list)


def within(names, numbers):
    """What is wrong with the first of these numbers that passes the limit of its field, or None."""
    for name, number in zip(names, numbers):
        if name in LIMITS and number >= LIMITS[name]:
            return f"{name} {number} is not below {LIMITS[name]}"
    return None


def is_access(machine, masks, own, numbers):
    """Whether these are the numbers of an access of a slice; the masks are known to be some of this machine."""
    thread, op, epoch, group, rmid, mask, line, hit, way = numbers
    is_within = thread < 2**32 and op < 2**32 and epoch < NUMBERS and group < 2**32 and rmid < 2**16 and line < 2**53 and hit < 2
    return is_within and mask in masks and way < machine.ways and line % machine.sets % machine.slices == own


def against_entry(machine, slice_number, kind, numbers):
    """What is wrong with the numbers of an entry, or None."""
    given = dict(zip(FIELDS[kind], numbers))
    way = given.get("way")
    if bad := within(FIELDS[kind], [0 if number is None else number for number in numbers]):
        return bad
    if way is not None and way >= machine.ways:
        return f"there is no way {way}: the cache has ways 0 to {machine.ways - 1}"
    if "mask" in given and (given["mask"] >= 2**32 or mask_fault(machine, given["mask"])):
        return f"{given['mask']} is no mask of this machine: masks are written in decimal, {2**machine.ways - 1} is every way"
    if kind in ("access", "drop") and given["line"] % machine.sets % machine.slices != slice_number:
        return f"line {given['line']} is of slice {given['line'] % machine.sets % machine.slices}"
    return None


def form(word, given, wanted):
    """What is wrong with the words of a line that has not the form of its kind."""
    if given != given.strip(" ") or "  " in given or "\t" in given:
        return "one space stands between two words, and none at the ends"
    numbers = given.split(" ")[1:]
    if wanted is not None and len(numbers) != len(wanted):
        return f"`{word}` has {len(wanted)} numbers ({', '.join(wanted)}), and this line {len(numbers)}"
    for number in numbers:
        if re.fullmatch("0[0-9]+", number):
            return f"`{number}` has a leading zero"
        if re.fullmatch("[0-9]+", number) and not re.fullmatch(NUMBER, number):
            return f"a number of {len(number)} digits is not below 2^64"
        if not re.fullmatch(NUMBER, number):
            return f"`{number}` is not a decimal number" + (": masks are decimal here" if re.fullmatch("(0x)?[0-9a-f]+", number) else "")
    return "it has too few numbers"
