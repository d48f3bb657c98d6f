"""The lines of a script, their words with the columns where they stand, and why a line is refused."""
import re
from typing import NamedTuple

WORD = re.compile(r"[^ \t]+")
COMMENT = "a # after words does not begin a comment: give the comment a line of its own"


class Word(NamedTuple):
    """A word of a line, and the column of its first byte, from 0."""

    text: str
    start: int


class Refused(Exception):
    """Why a line is refused: the program's words, where in the line, what is wrong there, and what to do about it."""

    def __init__(self, what, start, width, because, hint=""):
        super().__init__(what)
        self.what = what
        self.start = start
        self.width = max(width, 1)
        self.because = because
        self.hint = hint


def refuse(what, word, because, hint=""):
    """Refuses a line for one of its words."""
    if word.text.startswith("#"):
        hint = COMMENT
    raise Refused(what, word.start, len(word.text), because, hint)


def lines_of(data):
    """The lines of a script. One carriage return before a newline is dropped, and the last line may lack its newline."""
    *lines, last = data.decode("latin-1").split("\n")
    lines = [line.removesuffix("\r") for line in lines]
    return lines + [last] if last else lines


def words_of(line):
    """The words of a line, which blanks and tabs separate."""
    return [Word(word.group(), word.start()) for word in WORD.finditer(line)]
