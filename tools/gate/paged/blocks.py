"""The blocks of code of a page, and the commands in them."""
import re
from typing import NamedTuple

from . import text_of

BLOCK = re.compile(r"^```([^\n`]*)\n(.*?)^```$", re.M | re.S)


class Block(NamedTuple):
    """A block of code: its page and line, the words of its first line, and its text."""

    page: str
    line: int
    words: list[str]
    text: str

    @property
    def kind(self):
        return self.words[0] if self.words else ""

    @property
    def place(self):
        return f"{self.page}:{self.line}"


class Command(NamedTuple):
    """A command of a page and what has to follow: the text that it shows, or None for exit status 0."""

    place: str
    text: str
    wanted: str | None


def blocks_of(page):
    text = text_of(page)
    for found in BLOCK.finditer(text):
        yield Block(page, text.count("\n", 0, found.start()) + 1, found[1].split(), found[2])


def commands_of(block):
    """The commands of a block, with what each has to show."""
    if block.kind == "sh":
        return [Command(block.place, block.text, None)]
    parts = re.split(r"^\$ ", block.text, flags=re.M)
    if parts[0]:
        raise ValueError("a block of `console` begins with a command, after `$ `")
    found = []
    for part in parts[1:]:
        lines = part.splitlines(keepends=True)
        head = 1
        while head < len(lines) and lines[head].startswith("> "):
            head += 1
        text = lines[0] + "".join(line.removeprefix("> ") for line in lines[1:head])
        found.append(Command(block.place, text, "".join(lines[head:])))
    return found
