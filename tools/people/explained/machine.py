"""The machine line: its keys, their ranges, and what ties them together."""
from dataclasses import dataclass
from difflib import get_close_matches
import re

from .lines import Word, refuse
from .numbers import decimal, suggestion

WHAT = "bad machine line"
LINES = 1_048_576
SLICES = 32
SLICE_COUNTS = (1, 2, 4, 8, 16)

# Each key with what it is where it is not given; the CPUs are then one for each domain.
DEFAULTS = {
    "domains": 1, "sets": 64, "ways": 8, "classes": 8, "rmids": 16, "cpus": None, "min": 1,
    "shareable": 0, "threshold": 0, "slices": 1, "sparse": 0,
}
OTHER_NAMES = {
    "caches": "domains", "sockets": "domains", "set": "sets", "way": "ways", "associativity": "ways", "closids": "classes",
    "num_closids": "classes", "closes": "classes", "num_rmids": "rmids", "cores": "cpus", "min_cbm_bits": "min",
    "shareable_bits": "shareable", "max_threshold_occupancy": "threshold", "sparse_masks": "sparse", "slice": "slices",
}


@dataclass(frozen=True)
class Machine:
    """The numbers of a machine line."""

    domains: int
    sets: int
    ways: int
    classes: int
    rmids: int
    cpus: int
    min: int
    shareable: int
    threshold: int
    slices: int
    sparse: int

    @property
    def parts(self):
        """The slices of all caches together."""
        return self.domains * self.slices


def key_hint(key, keys):
    """Which key was probably meant."""
    near = OTHER_NAMES.get(key.lower()) or next(iter(get_close_matches(key.lower(), keys)), None)
    return f"the key is {near}" if near in keys else "the keys are " + ", ".join(keys)


SIZES = ("size", "capacity", "bytes", "cache", "cachesize", "cache_size", "l3", "llc")
UNITS = {"": 1, "k": 2**10, "m": 2**20, "g": 2**30}
LINE_BYTES = 64


def size_hint(text):
    """What a cache of this size may be, which a machine line has no key for."""
    rule = "a cache has no size of its own: it is sets times ways times 64 bytes"
    found = re.fullmatch("([0-9]{1,12})([kKmMgG]?)i?[bB]?", text)
    size = int(found[1]) * UNITS[found[2].lower()] if found else 0
    for ways in (16, 8, 12, 20, 11, 15):
        sets, rest = divmod(size, ways * LINE_BYTES)
        if sets and not rest and not sets & (sets - 1) and sets * ways <= LINES and sets <= 65536:
            return f"{rule}: {text} is sets={sets} ways={ways}, for example"
    return rule


def read_value(word, key, text):
    """The number of a key: decimal, but for the mask of shareable ways, which is hexadecimal."""
    value = Word(text, word.start + len(key) + 1)
    if not text:
        refuse(WHAT, word, f"no number stands after `{key}=`", "no blanks stand around the =")
    if key != "shareable":
        if key == "sparse" and text.lower() in ("yes", "true", "on", "no", "false", "off"):
            refuse(WHAT, value, f"{key} `{text}` is not a decimal number", "1 where masks may have gaps, else 0")
        return decimal(WHAT, value, key)
    if not re.fullmatch(r"(0x)?[0-9a-fA-F]+", text):
        hint = "the mask has 0x in small letters, or none" if text.startswith("0X") else suggestion(text, True)
        refuse(WHAT, value, f"shareable `{text}` is not a hexadecimal mask", hint)
    return int(text.removeprefix("0x"), 16)


def read_key(word, given, keys=tuple(DEFAULTS)):
    """Reads one KEY=VALUE, where these are the keys."""
    key, equals, text = word.text.partition("=")
    if not equals:
        hint = f"{key}=NUMBER, without blanks around the =" if key in keys else key_hint(key, keys)
        refuse(WHAT, word, f"`{word.text}` is not KEY=VALUE", hint)
    if key not in keys:
        refuse(WHAT, word, f"there is no key `{key}`", size_hint(text) if key.lower() in SIZES else key_hint(key, keys))
    if key in given:
        refuse(WHAT, word, f"`{key}` is given twice", f"it stands in column {given[key][1].start + 1} too")
    given[key] = (read_value(word, key, text), word)


def powers_around(number):
    """The powers of two next to a number."""
    low = 1 << (number.bit_length() - 1)
    return f"the next powers of two are {low} and {2 * low}"


class Ranges:
    """Tests the numbers that were given against their ranges."""

    def __init__(self, given, line, prefix=""):
        self.given = given
        self.line = line
        self.prefix = prefix
        self.numbers = {key: given[key][0] if key in given else default for key, default in DEFAULTS.items()}

    def fail(self, key, because, hint=""):
        word = self.given[key][1] if key in self.given else self.line
        refuse(WHAT, word, because, hint)

    def within(self, key, low, high, hint=""):
        value = self.numbers[key]
        if not low <= value <= high:
            self.fail(key, f"{self.prefix}{key} {value} is not from {low} to {high}", hint)

    def check(self):
        """The machine, where each number is in its range."""
        n = self.numbers
        self.within("domains", 1, 8)
        self.within("sets", 1, 65536, "65,536 sets at most; docs/MACHINES.md says how a larger cache is modelled")
        if n["sets"] & (n["sets"] - 1):
            self.fail("sets", f"{self.prefix}sets {n['sets']} is not a power of two", powers_around(n["sets"]))
        self.within("ways", 1, 32)
        self.within("classes", 1, 64)
        self.within("rmids", 1, 256)
        n["cpus"] = n["domains"] if n["cpus"] is None else n["cpus"]
        self.within("cpus", n["domains"], 64, "each domain has a CPU at least")
        self.within("min", 1, n["ways"], "a mask has no more bits than the ways")
        self.within("sparse", 0, 1)
        self.check_mask()
        self.within("threshold", 0, n["sets"] * n["ways"] * 64, "at most the bytes of one cache: sets times ways times 64")
        self.check_sizes()
        return Machine(**n)

    def check_mask(self):
        full = 2 ** self.numbers["ways"] - 1
        if self.numbers["shareable"] > full:
            because = f"shareable {self.numbers['shareable']:x} has a way past the last of {self.numbers['ways']}"
            self.fail("shareable", because, f"all ways are {full:x}")

    def check_sizes(self):
        n = self.numbers
        if n["slices"] not in SLICE_COUNTS:
            self.fail("slices", f"slices {n['slices']} is not 1, 2, 4, 8 or 16")
        if n["slices"] > n["sets"]:
            self.fail("slices", f"{n['slices']} slices are more than {n['sets']} sets")
        if n["domains"] * n["slices"] > SLICES:
            key = "slices" if "slices" in self.given else "domains"
            self.fail(key, f"{n['domains']} domains of {n['slices']} slices are {n['domains'] * n['slices']} slices; {SLICES} at most")
        lines = n["domains"] * n["sets"] * n["ways"]
        if lines > LINES:
            key = next((key for key in ("sets", "ways", "domains") if key in self.given), "sets")
            self.fail(key, f"domains times sets times ways are {lines} lines; {LINES} at most", "docs/MACHINES.md: one slice for all")


def read_machine(words):
    """The machine of a machine line."""
    given = {}
    for word in words[1:]:
        read_key(word, given)
    return Ranges(given, words[0]).check()
