"""What stands at a path, by the program's own word.

It is asked in batches: one play lists a directory, and one asks a list, a read and a write at each of its names. From then on only
`mkdir` and `rmdir` change what is there. Asked path by path, `ls -l` of a new group took nine plays.
"""
from enum import Enum
import stat


class Kind(Enum):
    """What stands at a path."""

    DIRECTORY = "a directory"
    WRITABLE = "a file that can be written"
    READABLE = "a file that is only read"
    NOTHING = "nothing"


MODES = {
    Kind.DIRECTORY: stat.S_IFDIR | 0o755,
    Kind.WRITABLE: stat.S_IFREG | 0o644,
    Kind.READABLE: stat.S_IFREG | 0o444,
}


# What a script holds of a path, and of one name in it.
PATH_BYTES = 2048
NAME_BYTES = 255


def is_path(path):
    """Whether a path can stand in a script's line."""
    return all("!" <= c <= "~" for c in path) and len(path) <= PATH_BYTES and all(map(is_name, path.split("/")))


def is_name(name):
    """Whether a name is short enough."""
    return len(name) <= NAME_BYTES


def below(path, top):
    """Whether a path is another one or below it."""
    return path == top or path.startswith(top + "/")


class Kinds:
    """What stands where. The program is asked once for a directory, of all that it lists; from then on only groups come and go."""

    def __init__(self, recording):
        self.recording = recording
        self.known = {"/": Kind.DIRECTORY}
        self.learned = set()

    def of(self, path):
        """What stands at a path."""
        if not is_path(path):
            return Kind.NOTHING
        directory = path.rpartition("/")[0] or "/"
        if path not in self.known and directory not in self.learned:
            self.learn(directory)
        return self.known.get(path, Kind.NOTHING)

    def learn(self, directory):
        """Asks what a directory lists, and then of a list, a read and a write at each of these paths: in one play for all."""
        (listed,) = self.recording.ask(f"list {directory}")
        paths = [path for name in listed.lines if (path := f"{directory.rstrip('/')}/{name}") not in self.known]
        answers = iter(self.recording.ask(*(f"{word} {path}" for path in paths for word in ("list", "read", "write"))))
        self.known |= {path: kind_of(*answered) for path, *answered in zip(paths, answers, answers, answers)}
        self.learned.add(directory)

    def changed(self, path, kind):
        """A group was made or removed, which changes what stands there and below."""
        self.known = {known: what for known, what in self.known.items() if not below(known, path)}
        self.learned = {known for known in self.learned if not below(known, path)}
        self.known[path] = kind


def kind_of(listed, read, written):
    """What stands where a list, a read and a write were answered so."""
    if listed.accepted:
        return Kind.DIRECTORY
    if not read.accepted:
        return Kind.NOTHING
    return Kind.READABLE if written.error == "EACCES" else Kind.WRITABLE
