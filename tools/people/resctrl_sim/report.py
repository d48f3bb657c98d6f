"""The report of a script, as docs/JSON.md tells it."""
from dataclasses import dataclass
import json


@dataclass(frozen=True)
class Command:
    """A command that the tree took. `text` has the lines that an accepted read or list gave, and is None of every other."""

    at: int
    op: int
    thread: int
    words: str
    result: str
    text: tuple[str, ...] | None = None

    @property
    def accepted(self):
        return self.result.split(" ")[0] == "ok"

    @property
    def error(self):
        """The name of the error, as EINVAL, or None where it was accepted."""
        return None if self.accepted else self.result.split(" ")[0]

    @property
    def reason(self):
        """Why it was refused, or None where it was accepted."""
        return None if self.accepted else self.result.partition(" ")[2]


@dataclass(frozen=True)
class Domain:
    """A cache at the end: its room and its lines, and how many lines each RMID has that has some."""

    domain: int
    places: int
    valid: int
    rmids: dict[int, int]


@dataclass(frozen=True)
class Group:
    """What a control group's accesses did."""

    gid: int
    path: str
    accesses: int
    hits: int
    misses: int

    @property
    def miss_rate(self):
        """Misses for each access, from 0 to 1; 0 where there is no access."""
        return self.misses / self.accesses if self.accesses else 0.0


@dataclass(frozen=True)
class Slice:
    """The history of a slice of a cache, with its entries as they stand in a report."""

    domain: int
    slice: int
    entries: tuple[str, ...]


@dataclass(frozen=True)
class Total:
    """The sums over all commands and all groups."""

    accesses: int
    commands: int
    hits: int
    misses: int
    refused: int


@dataclass(frozen=True)
class Window:
    """A time in which a group had its ways for itself. `start` is the position of the flush or lock that it begins after."""

    domain: int
    slice: int
    gid: int
    ways: int
    start: int
    accesses: int
    hits: int
    covered: int
    covered_hits: int
    private: int


class NotAsked(AttributeError):
    """The report does not have what it was not asked for."""


# What a report may lack, each with why.
WHY_NOT = {"commands": "it was played with quiet=True", "journal": "play with journal=True", "windows": "play with windows=True"}


@dataclass(frozen=True)
class Report:
    """A whole report. `lists` has what was asked for of `commands`, `journal` and `windows`: the others raise NotAsked."""

    domains: tuple[Domain, ...]
    groups: tuple[Group, ...]
    total: Total
    lists: dict[str, tuple]

    @classmethod
    def of(cls, text):
        """The report of its JSON text."""
        parts = json.loads(text)
        makers = {"commands": command_of, "journal": slice_of, "windows": window_of}
        return cls(
            domains=tuple(map(domain_of, parts["domains"])),
            groups=tuple(Group(**group) for group in parts["groups"]),
            total=Total(**parts["total"]),
            lists={name: tuple(map(make, parts[name])) for name, make in makers.items() if name in parts},
        )

    def asked(self, name):
        """What was asked for."""
        if name not in self.lists:
            raise NotAsked(f"this report has no {name}: {WHY_NOT[name]}")
        return self.lists[name]

    @property
    def commands(self) -> tuple[Command, ...]:
        """The commands, in order."""
        return self.asked("commands")

    @property
    def journal(self) -> tuple[Slice, ...]:
        """The journal of each slice."""
        return self.asked("journal")

    @property
    def windows(self) -> tuple[Window, ...]:
        """The windows."""
        return self.asked("windows")

    def group(self, path):
        """The last group that was made at this path. A KeyError tells that there was none."""
        found = [group for group in self.groups if group.path == path]
        if not found:
            raise KeyError(path)
        return found[-1]

    @property
    def refused(self):
        """The commands that were refused."""
        return tuple(command for command in self.commands if not command.accepted)


def command_of(part):
    lines = {"text": tuple(part["text"])} if "text" in part else {}
    return Command(**part | lines)


def domain_of(part):
    return Domain(**part | {"rmids": {held["rmid"]: held["lines"] for held in part["rmids"]}})


def slice_of(part):
    return Slice(**part | {"entries": tuple(part["entries"])})


def window_of(part):
    return Window(**{("start" if key == "from" else key): value for key, value in part.items()})
