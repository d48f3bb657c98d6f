"""Two traces and a file that is none, and calls of `bikhnoun plan` on them."""
from pathlib import Path
import tempfile
import unittest

from installed import bikhnoun

LONG = b" L 0,4\n M 7f,2\nI  400,4\n"
SHORT = b" S 40,4\n L 80,4\n"
# A planner that prints its words and what it reads.
SHOWN = 'echo "$@"; cat'


class Traced(unittest.TestCase):
    def setUp(self):
        folder = tempfile.TemporaryDirectory()
        self.addCleanup(folder.cleanup)
        self.folder = folder.name
        for name, trace in (("long", LONG), ("short", SHORT), ("bad", b"no trace\n")):
            Path(folder.name, name).write_bytes(trace)

    def plan(self, *words, programs=None):
        return bikhnoun("plan", *words, programs=programs, cwd=self.folder)
