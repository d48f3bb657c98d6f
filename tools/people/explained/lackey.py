"""The lines of a trace, as valgrind's lackey writes them with --trace-mem=yes, and what is wrong with one that is none."""
import re

from .limits import ADDRESSES
from .lines import Refused, refuse, words_of

WHAT = "bad trace line"
MOST_SIZE = 4096
LINE_BYTES = 64
USES = {"I": "instructions", "L": "loads", "S": "stores", "M": "modifies"}


def is_use(line):
    """Whether a line looks like a use of memory."""
    return re.fullmatch(r"[ \t]*[ILSM][ \t]+[0-9a-fA-F]+,[0-9]+[ \t]*", line) is not None


def read_size(word, text, start):
    """The size of a use."""
    size = int(text) if re.fullmatch("[0-9]{1,18}", text) else None
    if size is None or not 1 <= size <= MOST_SIZE:
        raise Refused(WHAT, start, len(text), f"size `{text}` is not a decimal number from 1 to {MOST_SIZE}")
    return size


def read_line(line):
    """The kind of a use and how many lines of memory it uses, twice for a modify; or None where the line says nothing of memory."""
    words = words_of(line)
    if line.startswith("==") or not words:
        return None
    if words[0].text not in USES or len(words) != 2:
        because = f"`{words[0].text}` is not I, L, S or M" if words[0].text not in USES else f"{len(words)} words, and not a letter and ADDR,SIZE"
        raise Refused(WHAT, words[0].start, len(words[0].text), because, line_hint(line, words))
    address, comma, size = words[1].text.partition(",")
    if not comma:
        refuse(WHAT, words[1], f"`{words[1].text}` is not ADDR,SIZE", "no blanks stand around the comma")
    if not re.fullmatch("[0-9a-fA-F]+", address):
        hint = "without 0x" if re.match("0[xX]", address) else ""
        raise Refused(WHAT, words[1].start, len(address), f"address `{address}` is not a hexadecimal number", hint)
    first, count = int(address, 16), read_size(words[1], size, words[1].start + len(address) + 1)
    if first + count > ADDRESSES:
        raise Refused(WHAT, words[1].start, len(address), f"the last byte, {first + count - 1:#x}, is not below 2^48")
    lines = (first + count - 1) // LINE_BYTES - first // LINE_BYTES + 1
    return words[0].text, lines * (2 if words[0].text == "M" else 1)


def line_hint(line, words):
    """What a line probably is that is none of a trace."""
    if re.match(r"[ \t]*[0-9a-fA-F]+[ \t]+.*\|OP", line):
        return "this is a line of `perf script`: `bikhnoun traces` makes a script of such samples"
    if words[0].text.lower() in ("i", "l", "s", "m"):
        return "the letter is a capital, and stands before one word ADDR,SIZE"
    return "a line of the program that was traced? --log-file=FILE keeps them apart from the trace"


class Trace:
    """What a trace has: how many uses of each kind, and of how many lines of memory."""

    def __init__(self):
        self.uses = dict.fromkeys(USES, 0)
        self.lines = 0

    def read(self, line):
        """Reads one line."""
        if used := read_line(line):
            self.uses[used[0]] += 1
            self.lines += used[1]

    def text(self):
        """What it has, in words."""
        return ", ".join(f"{count} {USES[kind]}" for kind, count in self.uses.items()) + f": {self.lines} uses of a line of 64 bytes"
