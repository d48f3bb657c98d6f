"""What the comparisons of orders and of reports share: calls of programs, broken journals, and how many cases passed."""
import re
import subprocess
from pathlib import Path

TOP = Path(__file__).resolve().parents[3]
EXAMPLE = TOP / "examples" / "journals" / "administrators.journal"
# A row of a table of the page has an answer first, and then an example in a cell of its own.
ROW = re.compile(r"^\| `((?:no|line) [^`]*)` \|(?:.*\|)? `(sed [^`]*)` \|", re.MULTILINE)
MOST_SECONDS = 300


class Tried:
    """How many cases were tried, and how many failed."""

    def __init__(self):
        self.count = self.failed = 0

    def case(self, holds, name, why):
        self.count += 1
        if not holds:
            self.failed += 1
            print(f"{name}: {why}")

    def end(self, what):
        """Says how many there were, and returns the exit status."""
        print(f"{what}: {self.count - self.failed} passed, {self.failed} failed")
        return 1 if self.failed else 0


def told(program, words, given):
    """The exit status of these words on an input, and what was written."""
    done = subprocess.run([program, *words], input=given, stdout=subprocess.PIPE, timeout=MOST_SECONDS, check=False)
    return done.returncode, done.stdout


def broken_journals():
    """Each command of docs/JOURNALS.md that breaks the example, and the example after it."""
    journal = EXAMPLE.read_bytes()
    for _, command in ROW.findall((TOP / "docs" / "JOURNALS.md").read_text()):
        yield command, subprocess.run(command, shell=True, input=journal, stdout=subprocess.PIPE, check=True).stdout
