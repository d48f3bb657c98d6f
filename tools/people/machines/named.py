"""The cache of a machine by its name: `here` is the one that this runs on, others are those of examples/machines (docs/MACHINES.md)."""
from difflib import get_close_matches
import os
from pathlib import Path
import re
from typing import NamedTuple

from paging.examples import folder
from tracing import LINE_BYTES

HERE = "here"
# Where Linux shows the caches of a CPU, the variable that names another such folder, and the level of the cache that is planned for.
CACHES, CACHES_VARIABLE = "/sys/devices/system/cpu/cpu0/cache", "BIKHNOUN_CACHES"
LEVEL = 3
# The machines whose caches have more sets than the machine of a script can have: so many.
WHOLE = {"milan_x": 98304}


class UnknownMachine(Exception):
    """There is no machine of this name, or it shows no cache that can be planned for."""


class Cache(NamedTuple):
    """A cache, all slices together."""

    sets: int
    ways: int


def shown_caches():
    """The folder of each cache that this machine shows."""
    return sorted(Path(os.environ.get(CACHES_VARIABLE) or CACHES).glob("index*"))


def shown(cache, file):
    """A number that this machine shows of a cache, or None."""
    try:
        return int((cache / file).read_text(encoding="ascii"))
    except (OSError, ValueError):
        return None


def cache_here():
    """The L3 cache of this machine."""
    cache = next((cache for cache in shown_caches() if shown(cache, "level") == LEVEL), None)
    if cache is None:
        raise UnknownMachine(f"this machine shows no L3 cache below {CACHES}; give SETS and WAYS")
    sets, ways, size = (shown(cache, file) for file in ("number_of_sets", "ways_of_associativity", "coherency_line_size"))
    if not sets or not ways:
        raise UnknownMachine(f"this machine does not show how many sets and ways its L3 cache has ({cache}); give SETS and WAYS")
    if size != LINE_BYTES:
        raise UnknownMachine(f"lines of this machine's L3 cache have {size} bytes; all that is planned for have {LINE_BYTES}")
    return Cache(sets, ways)


def machine_lines():
    """The keys of the machine line of each example of a machine, by its name."""
    paths = sorted((folder() or Path()).glob("machines/*.script"))
    found = ((path.stem, re.search("^machine (.*)$", path.read_text(encoding="ascii"), re.M)) for path in paths)
    return {name: line[1] for name, line in found if line}


def line_of(name):
    """The keys of a machine of the examples."""
    lines = machine_lines()
    if name not in lines:
        close = get_close_matches(name, [HERE, *lines], 1)
        raise UnknownMachine(f"there is no machine {name!r}{f'; is it {close[0]!r}?' if close else '; there are ' + ', '.join([HERE, *lines])}")
    return lines[name]


def cache_of(name):
    """The cache of a machine."""
    if name == HERE:
        return cache_here()
    keys = dict(word.split("=") for word in line_of(name).split())
    return Cache(WHOLE.get(name, int(keys["sets"])), int(keys["ways"]))


def keys_of(text):
    """The keys of a machine line: as they are given, or those of a machine of this name."""
    if "=" in text:
        return text
    if text != HERE:
        return line_of(text)
    sets, ways = cache_here()
    if sets & (sets - 1) or sets > 65536:
        raise UnknownMachine(f"the L3 cache here has {sets} sets, and a script takes a power of two up to 65536: docs/MACHINES.md says what to take")
    return f"sets={sets} ways={ways}"
