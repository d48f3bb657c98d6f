"""The entries of a cache's history, of all its slices, one after the other."""
from dataclasses import dataclass
import re

ENTRY = re.compile(r"(\d+) (\d+)\.(\d+) e(\d+) (.*)")
ACCESS = re.compile(r"access group (\d+) rmid \d+ mask ([0-9a-f]+) set (\d+) line \d+ (hit|fill) way (\d+)")
DROP = re.compile(r"drop line (\d+) way (\d+)")
LOCK = re.compile(r"lock mask ([0-9a-f]+) first \d+")


@dataclass(frozen=True)
class Entry:
    """An entry: its slice, how many commands the tree had taken, and what happened."""

    slice: int
    epoch: int
    what: str


def entries_of(part):
    """The entries of one slice. The epoch of each is at least that of those before it."""
    latest = 0
    for text in part["entries"]:
        found = ENTRY.fullmatch(text)
        latest = max(latest, int(found[4]))
        yield Entry(part["slice"], latest, found[5])


def merged(report, domain):
    """The entries of all slices of a cache: those of a slice in their order, and those of several by their epochs."""
    parts = [part for part in report["journal"] if part["domain"] == domain]
    entries = [entry for part in parts for entry in entries_of(part)]
    return sorted(entries, key=lambda entry: entry.epoch)
