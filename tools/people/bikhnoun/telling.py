"""What is said on standard error."""
import os
import sys


class Stopped(Exception):
    """Why a word ends here, in one sentence, and its exit status."""

    def __init__(self, why, status=3):
        super().__init__(why)
        self.status = status


def has_colour(stream):
    """Colour is for terminals, and for none that says it does not want it (no-color.org)."""
    return stream.isatty() and not os.environ.get("NO_COLOR") and os.environ.get("TERM") != "dumb"


def say(name, why):
    """Says why something ended, after the name of the command."""
    head = f"\x1b[1;31m{name}:\x1b[0m" if has_colour(sys.stderr) else f"{name}:"
    print(f"{head} {why}", file=sys.stderr, flush=True)


def hint(line):
    """Says something to whoever sits before a terminal."""
    if sys.stderr.isatty():
        print(line, file=sys.stderr, flush=True)
