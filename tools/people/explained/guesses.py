"""What was probably meant by a byte or a word that no script has."""
from difflib import get_close_matches
import re

from .lines import Refused, refuse
from .ops import USAGES

BAD = re.compile("[^\t -~]")
OTHER_WORDS = {
    "echo": "write PATH TEXT, for echo TEXT > PATH", "printf": "write PATH TEXT", "cat": "read PATH", "ls": "list PATH",
    "rm": "rmdir PATH", "load": "access TASK CPU ADDR", "store": "access TASK CPU ADDR", "wbinvd": "flush",
    "task": "tasks A-B C ..., after the machine line", "cpus": "write PATH/cpus TEXT, or `cpus=` in the machine line",
    "sleep": "there is no time here: an order line says who goes on", "wait": "the next phase waits for the threads of this one",
    "end": "a thread ends where the next begins", "mount": "the tree is there from the start",
    "umount": "the tree is there to the end", "//": "a comment begins with #", ";": "a comment begins with #",
    "--": "a comment begins with #",
}
PAIRS = {
    "\xe2\x80\x9c": "a quotation mark of a word processor", "\xe2\x80\x9d": "a quotation mark of a word processor",
    "\xe2\x80\x98": "a quotation mark of a word processor", "\xe2\x80\x99": "an apostrophe of a word processor",
    "\xe2\x80\x93": "a dash of a word processor: type -", "\xe2\x80\x94": "a dash of a word processor: type -",
    "\xc2\xa0": "a blank that does not break: type a plain one", "\xe2\x80\xaf": "a blank that does not break: type a plain one",
}


def check_bytes(line, at):
    """Refuses a line for its first byte that no script has."""
    if bad := BAD.search(line):
        raise Refused("bad byte", bad.start(), 1, f"byte 0x{ord(bad.group()):02x}", byte_hint(line, bad.start(), at))


def byte_hint(line, column, at):
    """What a bad byte probably is."""
    if at == 1 and line.startswith("\xef\xbb\xbf"):
        return "a byte order mark: save as ASCII, or as UTF-8 without the mark"
    if at == 1 and line.startswith(("\xff\xfe", "\xfe\xff")) or line[column] == "\0":
        return "this is UTF-16, or no text: save as ASCII"
    if line[column] == "\r":
        return "a carriage return is dropped only before a newline, and only one"
    for mark, name in PAIRS.items():
        if line.startswith(mark, column):
            return name
    return "a script is ASCII, its comments too"


def unknown_word(word):
    """Refuses a line whose first word begins none."""
    text = word.text
    if "=" in text:
        hint = "keys stand after `machine`, in one line"
    elif text.lower() in OTHER_WORDS:
        hint = OTHER_WORDS[text.lower()]
    elif text.startswith(("//", ";", "--", "%", "!")):
        hint = "a comment begins with #"
    else:
        near = get_close_matches(text.lower(), [*USAGES, "machine", "tasks"], 1)
        hint = f"the word is `{near[0]}`" if near else "lines begin with " + ", ".join(["machine", "tasks", *USAGES])
    refuse("unknown word", word, f"no line begins with `{text}`", hint)


def no_machine(word):
    """Refuses a script that begins with something else."""
    hint = "the first line that says something is `machine KEY=VALUE ...`"
    if word.text.startswith(("{", "[", "<")):
        hint = "is this a script? " + hint
    elif get_close_matches(word.text.lower(), ["machine"], 1):
        hint = "the word is `machine`"
    refuse("no machine line", word, f"`{word.text}` comes before the machine line", hint)
