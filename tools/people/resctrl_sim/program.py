"""The program and the checker, the plays of scripts by the one and the journals of the other."""
import os
import re
import subprocess

from . import programs
from .report import Report

PROBE = "machine sets=1 ways=1\nphase\nthread\nread /mode\n"
PROBED = """0 0.0 read /mode: ok
|shareable
group 0 /: accesses 0 hits 0 misses 0
domain 0: valid 0 of 1
total: commands 1 refused 0 accesses 0 hits 0 misses 0
"""


class NoScript(ValueError):
    """The bytes are no script: the program's own line says why."""

    LINE = re.compile(r"line (\d+): (.*)")

    def __init__(self, told):
        super().__init__(told)
        line, self.what = self.LINE.match(told).groups()
        self.line = int(line)


class Broken(RuntimeError):
    """There is no program, or it ended with a status that no script explains."""


class Built:
    """A built program, by its path: the one that is named, that of its variable in the environment, the one of this repository, or
    that of PATH."""

    name = variable = None

    def __init__(self, path=None):
        self.path = path or os.environ.get(self.variable) or programs.find(self.name)
        if not programs.is_runnable(self.path):
            raise Broken(f"{self.path or self.name} is not a program; `make demo` builds it")

    def answer(self, text, *words, statuses=(0,)):
        """What is written for a text by these words. A NoScript tells why it is refused."""
        try:
            done = subprocess.run([self.path, *words], input=text.encode("ascii"), stdout=subprocess.PIPE, check=False)
        except OSError as why:
            raise Broken(f"{self.path} is not a program: {why.strerror}") from why
        written = done.stdout.decode("ascii", "replace")
        if done.returncode == 1 and NoScript.LINE.match(written):
            raise NoScript(written.rstrip("\n"))
        if done.returncode not in statuses:
            raise Broken(f"{self.path} ended with status {done.returncode}")
        return written


class Program(Built):
    """`resctrl_sim`; its variable is RESCTRL_SIM."""

    name, variable = "resctrl_sim", "RESCTRL_SIM"

    def require(self):
        """Raises Broken where the path leads to another program: the report of a script of one command has to be that of FORMAT.md."""
        try:
            is_other = self.play(PROBE) != PROBED
        except (NoScript, Broken) as why:
            raise Broken(f"{self.path} is not {self.name}: {why}") from why
        if is_other:
            raise Broken(f"{self.path} is not {self.name}: it does not play a script")

    def play(self, script, *words):
        """The report of a script, as text, by `step` or the words that are given."""
        return self.answer(script, *(words or ["step"]))


class Checker(Built):
    """`resctrl_check`; its variable is RESCTRL_CHECK."""

    name, variable = "resctrl_check", "RESCTRL_CHECK"

    def export(self, script, *, run=False):
        """A script with the journals of its play, which with `run` is one of real threads."""
        return self.answer(script, "export", "run" if run else "step")

    def check(self, journal):
        """`yes` where the journals of a text are a run of its script, else `no` and the first clause that is false."""
        return self.answer(journal, "check", statuses=(0, 6)).rstrip("\n")


def play(script, *, program=None, run=False, quiet=False, journal=False, windows=False):
    """Plays a script, which is a text or its lines, and gives its report. A NoScript tells the fault of one that is none.

    `run` plays its threads by real ones; `quiet` leaves out the commands; `journal` and `windows` ask for these.
    """
    text = script if isinstance(script, str) else "".join(line + "\n" for line in script)
    asked = {"--quiet": quiet, "--journal": journal, "--windows": windows}
    flags = [flag for flag, wanted in asked.items() if wanted]
    return Report.of(Program(program).play(text, "run" if run else "step", "--json", *flags))
