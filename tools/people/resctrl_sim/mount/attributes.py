"""Modes, owners and times, which no command of a script has: as those of a kernel's tree they can be set, and times move."""
from dataclasses import dataclass
import os
import time

from .kinds import below

# What the library hands on in place of a time: as in utimensat.
NOW = 2**30 - 1
OMITTED = 2**30 - 2


@dataclass
class Attributes:
    """What a client can set of a path. The mode is None until it is set; times are nanoseconds."""

    inode: int
    uid: int
    gid: int
    accessed: int
    modified: int
    changed: int
    mode: int | None = None


class Table:
    """The attributes of all paths that were looked at since they came to be."""

    def __init__(self):
        self.found = {}
        self.born = {"": time.time_ns()}
        self.inodes = 0

    def of(self, path):
        """Those of a path. A file that is looked at first has the times at which its group was made."""
        if path not in self.found:
            self.inodes += 1
            born = self.birth(path)
            self.found[path] = Attributes(self.inodes, os.getuid(), os.getgid(), born, born, born)
        return self.found[path]

    def birth(self, path):
        """When what a path is in was made."""
        while path not in self.born:
            path = path.rpartition("/")[0]
        return self.born[path]

    def made(self, path, mode):
        """A group was made."""
        self.forget(path)
        self.born[path] = time.time_ns()
        self.of(path).mode = mode
        self.modify(path.rpartition("/")[0] or "/")

    def removed(self, path):
        """A group was removed, with all that it held."""
        self.forget(path)
        self.modify(path.rpartition("/")[0] or "/")

    def forget(self, path):
        for table in (self.found, self.born):
            for known in [known for known in table if known and below(known, path)]:
                del table[known]

    def modify(self, path):
        """What stands at a path was written."""
        attributes = self.of(path)
        attributes.modified = attributes.changed = time.time_ns()

    def change(self, path, **values):
        """A client set some of these."""
        attributes = self.of(path)
        for name, value in values.items():
            setattr(attributes, name, value)
        attributes.changed = time.time_ns()

    def set_times(self, path, times):
        """Sets the times of the last access and of the last write, where they are not omitted."""
        now = time.time_ns()
        names = ("accessed", "modified")
        given = {name: now if value == NOW else value for name, value in zip(names, times or (NOW, NOW)) if value != OMITTED}
        self.change(path, **given)
