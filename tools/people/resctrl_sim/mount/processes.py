"""Processes of this machine as tasks of the tree, each declared when it is first written to a `tasks` file, until it ends.

An id that was refused once is not declared later: the record has its refusal, and would show another answer where it is played again.
"""
import os
from pathlib import Path
import re

MOST_TASKS = 4096
WRITE = re.compile(r"\s*write\s+(\S*)\s(.*)")
# Where the time at which a process began stands in its `stat`, after its name.
BEGINNING = 19
ID = re.compile(r"\b\d+\b")
# How many processes one command lets go.
AT_ONCE = 256


class Processes:
    """Which ids are declared, and which were refused: those stay so, since the record has their refusal."""

    def __init__(self, recording, proc=Path("/proc")):
        self.recording = recording
        self.proc = proc
        self.declared = set()
        for first, last in recording.declared():
            self.declared.update(range(first, last + 1))
        written = (match.groups() for line in recording.head if (match := WRITE.match(line)))
        self.refused = {task for path, text in written for task in ids_of(path, text)} - self.declared
        # Of each process that was declared here when it began, by which one is told from a later one of the same id.
        self.began = {}
        # Those that have ended, and are in the default group since then.
        self.gone = set()

    def meet(self, path, written, again=False):
        """What is done before a text is written, or the rest of one: its processes are declared, and before a mode others let go."""
        if os.path.basename(path) == "mode" and not again:
            self.let_go()
        self.declare(path, written)

    def declare(self, path, written):
        """Declares the ids of a text for `tasks` that are processes of this machine, as long as there is room."""
        ids = ids_of(path, written.decode("ascii", "replace"))
        new = set(ids) - self.declared - self.refused
        began = {task: when for task in sorted(new) if (when := self.beginning(task)) is not None}
        began = dict(list(began.items())[: MOST_TASKS - len(self.declared)])
        self.recording.declare(list(began))
        self.began |= began
        self.declared |= set(began)
        self.refused |= new - set(began)
        self.meet_again(ids)

    def meet_again(self, ids):
        """A process that has the id of one that has ended takes its place when it is written."""
        for task in set(ids) & set(self.began):
            if (when := self.beginning(task)) not in (None, self.began[task]):
                self.began[task] = when
                self.gone.discard(task)

    def beginning(self, task):
        """When a process or thread began, or None where there is none of this id."""
        try:
            text = (self.proc / str(task) / "stat").read_text(encoding="ascii", errors="replace")
        except OSError:
            return None
        return text.rpartition(")")[2].split()[BEGINNING]

    def has_ended(self, task):
        """Whether a task was a process that is there no more."""
        return task in self.began and self.beginning(task) != self.began[task]

    def shown(self, path, text):
        """A text that was read; of a `tasks` file without the processes that have ended."""
        if not is_tasks(path):
            return text
        return "".join(line for line in text.splitlines(keepends=True) if not self.has_ended(int(line)))

    def first_ended(self, path, written):
        """The first id in a text for `tasks` whose process has ended, as a match, or None."""
        found = ID.finditer(written.decode("ascii", "replace")) if is_tasks(path) else ()
        return next((one for one in found if self.has_ended(int(one[0]))), None)

    def let_go(self):
        """Moves those that have ended to the default group, since they are in none."""
        ended = sorted(task for task in set(self.began) - self.gone if self.has_ended(task))
        texts = [",".join(map(str, ended[at : at + AT_ONCE])) for at in range(0, len(ended), AT_ONCE)]
        if texts:
            self.recording.keep([f"write /tasks {text}" for text in texts])
            self.gone |= set(ended)


def is_tasks(path):
    return os.path.basename(path) == "tasks"


def ids_of(path, text):
    """The ids that a text for `tasks` names; a text for another file names none."""
    return [int(word) for word in ID.findall(text)] if is_tasks(path) else []
