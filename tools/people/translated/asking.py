"""Asks the proved program of a script what its commands do: their answers, and what stands in a group's file after each that may change it."""
from typing import NamedTuple

from bikhnoun.playing import played
from bikhnoun.telling import Stopped
from explained.kinds import PROGRAMS
from explained.pairs import COMMANDS
from resctrl_sim.programs import INVALID, ended, required

from .reading import Command

OK = "ok"


class Done(NamedTuple):
    """A command, its answer, and the lines of the file that it may have changed, or that it reads; none where there is no such file."""

    command: Command
    answer: str
    lines: list[str]


def looked_at(command):
    """The file that tells what a command has changed, or None where its answer tells it."""
    if command.word == "mkdir":
        return f"{command.group}/schemata"
    if command.word == "write" and command.file in ("schemata", "tasks"):
        return f"{command.group}/{command.file}"
    return None


def asked(head, commands):
    """The script of these commands alone, with a read after each that may change a file."""
    lines = list(head)
    for command in commands:
        lines.append(command.text)
        if path := looked_at(command):
            lines.append(f"read {path}")
    return "".join(line + "\n" for line in lines).encode("ascii")


def answers_of(report):
    """The answer of each command of a report, and the lines that it reads."""
    found = []
    for line in report.splitlines():
        if line.startswith("|"):
            found[-1][1].append(line[1:])
        elif line.split(" ", 1)[0].isdigit():
            found.append((line.rpartition(": ")[2], []))
        else:
            break
    return found


def done(script, commands):
    """What each of the commands does, in order."""
    name = PROGRAMS[script.kind]
    count = len(commands) + sum(looked_at(command) is not None for command in commands)
    if count > COMMANDS:
        raise Stopped(f"{len(commands)} commands are {count} with the reads that tell what they do; {name} takes {COMMANDS}", INVALID)
    play = played([required(name)], asked(script.head, commands))
    if play.returncode:
        raise Stopped(f"{play.stdout.decode('ascii', 'replace').strip()}: {ended(name, play.returncode)}")
    answers = iter(answers_of(play.stdout.decode("ascii")))
    for command in commands:
        answer, lines = next(answers)
        yield Done(command, answer, next(answers)[1] if looked_at(command) else lines)


def masks_of(lines):
    """The masks of each resource that a `schemata` names, by domain."""
    parts = (line.partition(":") for line in lines)
    return {name: tuple(int(entry.partition("=")[2], 16) for entry in entries.split(";")) for name, _, entries in parts}


class Homes:
    """The group of each task: at first the default one."""

    def __init__(self, ranges):
        self.groups = {task: "" for first, last, _ in ranges for task in range(first, last + 1)}

    def moved(self, group, tasks):
        """The tasks of these that were in another group until now."""
        moved = [task for task in tasks if self.groups[task] != group]
        self.groups.update(dict.fromkeys(moved, group))
        return moved

    def left(self, group):
        """The tasks of a group that is removed: from now on they are the default group's."""
        return self.moved("", [task for task, home in self.groups.items() if home == group])
