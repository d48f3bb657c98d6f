"""The crates of the repository, with their edits."""
import hashlib
import re
import sys
from dataclasses import dataclass, field
from functools import cached_property
from pathlib import Path

# What a proof reads of a crate.
PARTS = ("src", "specs", "proofs")
FUNCTION = re.compile(r"\s*(?:pub(?:\([a-z]+\))? )?(?:const )?(?:unsafe )?fn (\w+)")
# The first line of an item that is no function.
ITEM = re.compile(r"(?:pub(?:\([a-z]+\))? )?(?:const \w+:|static|struct|enum|impl|trait|type|mod|use|ghost use)\b")


class BadEdit(Exception):
    """An edit that cannot be applied."""


@dataclass(frozen=True)
class Pair:
    """A text that stands once in a file, and what takes its place."""

    file: str
    old: str
    new: str


@dataclass(frozen=True)
class Edit:
    """A wrong body: a few texts of a crate that are replaced."""

    crate: str
    path: Path

    @property
    def name(self):
        return f"{self.crate}/{self.path.stem}"

    @cached_property
    def text(self):
        return self.path.read_text()

    @cached_property
    def pairs(self):
        file, old, pairs = "", "", []
        for line in self.text.splitlines():
            key, _, value = line.partition(": ")
            if key == "file":
                file = value.strip()
            elif key == "old":
                old = value
            elif line.startswith("new:"):
                pairs.append(Pair(file, old, line[len("new:") :].removeprefix(" ")))
        return pairs

    def __hash__(self):
        return hash(self.path)

    def texts(self, folder):
        """The texts of the files that the edit changes in the crate in this folder."""
        if not self.pairs:
            raise BadEdit("it has no pair of an old and a new text")
        texts = {}
        for pair in self.pairs:
            path = folder / pair.file
            text = texts.get(path) or (path.read_text() if path.is_file() else "")
            if text.count(pair.old) != 1:
                raise BadEdit(f"an old text is in {pair.file} {text.count(pair.old)} times, and not once")
            texts[path] = text.replace(pair.old, pair.new)
        return texts

    def fault(self, folder):
        """Why the edit cannot be applied, or None."""
        try:
            self.texts(folder)
        except BadEdit as why:
            return str(why)
        return None

    def function(self, folder):
        """The file and the name of the function that the edit is in, or None if it is in none or in several."""
        places = {function_around((folder / pair.file).read_text(), pair) for pair in self.pairs}
        place = places.pop() if len(places) == 1 else None
        return place and (self.pairs[0].file, place)


def function_around(text, pair):
    """The name of the function in which the old text of a pair stands, or None."""
    if not pair.file.endswith(".rt") or text.count(pair.old) != 1:
        return None
    first = text[: text.index(pair.old)].count("\n")
    for line in reversed(text.split("\n")[: first + 1]):
        if found := FUNCTION.match(line):
            return found.group(1)
        if ITEM.match(line):
            return None
    return None


def apply(edits, folder):
    """Writes the edits into the crate in this folder."""
    for edit in edits:
        for path, text in edit.texts(folder).items():
            path.write_text(text)


@dataclass(eq=False)
class Crate:
    """A crate: its folder, the crates that it uses, lowest first, and the libraries of the kit."""

    name: str
    folder: Path
    line: str
    uses: list = field(default_factory=list)
    of_kit: list = field(default_factory=list)

    def edits(self):
        return [Edit(self.name, path) for path in sorted(self.folder.glob("edits/*.edit"))]

    def below(self):
        """The crates below this one, lowest first."""
        found = []
        for crate in self.uses:
            found += [each for each in [*crate.below(), crate] if each not in found]
        return found

    @cached_property
    def sum(self):
        """A sum of all that a proof of the crate reads in the repository."""
        told = hashlib.sha256(self.line.encode())
        for part in PARTS:
            for path in sorted(path for path in self.folder.glob(f"{part}/**/*") if path.is_file()):
                told.update(repr((str(path.relative_to(self.folder)), path.read_bytes())).encode())
        for crate in self.uses:
            told.update(crate.sum.encode())
        return told.hexdigest()


class Crates:
    """The crates that crates.txt lists."""

    def __init__(self, top):
        self.by_name = {}
        lines = [line.strip() for line in (top / "crates.txt").read_text().splitlines()]
        for line in lines:
            if ":" in line and not line.startswith("#"):
                name = line.split(":")[0].split()[0]
                self.by_name[name] = Crate(name, top / "crates" / name, line)
        for crate in self.by_name.values():
            for name in crate.line.split(":")[1].split():
                own = self.by_name.get(name)
                crate.uses += [own] if own else []
                crate.of_kit += [] if own else [name]

    def all(self):
        return list(self.by_name.values())

    def named(self, name):
        if name not in self.by_name:
            sys.exit(f"edits: {name} is no crate")
        return self.by_name[name]
