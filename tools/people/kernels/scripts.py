"""Scripts of the simulator as a kernel can play them: their file commands with the simulator's answers."""
from dataclasses import dataclass
import re

from resctrl_sim import Machine, play

# A guest's own processes are from here on.
FIRST_UNUSABLE_TASK = 4_000_000
MOST_CLASSES = 32
PLAYED = ("mkdir", "rmdir", "read", "write", "list", "tick")
# A line that is left out keeps its place, so that the lines after it keep their numbers.
LEFT_OUT = "#"


class NotComparable(ValueError):
    """What of a script no kernel here can play, in one sentence."""


@dataclass(frozen=True)
class Command:
    """A command as a report shows it, with its line in the script, from 0."""

    words: str
    line: int
    error: str | None
    reason: str | None
    text: tuple[str, ...] | None

    @property
    def verb(self):
        return self.words.split(" ", 1)[0]

    @property
    def path(self):
        return (self.words.split(" ", 2) + [""])[1]

    @property
    def file(self):
        """The last component of the path."""
        return self.path.rpartition("/")[2]

    @property
    def group(self):
        """The path of the group that a file is in, or below whose `mon_data` it is."""
        return re.sub(r"(/mon_data)?(/mon_L3_\d+)?/[^/]*$", "", self.path)

    @property
    def target(self):
        """What it is on: its verb with its file, or with the kind of group."""
        if self.verb in ("mkdir", "rmdir"):
            return f"{self.verb} {'monitor' if self.group.endswith('/mon_groups') else 'control'}"
        return f"{self.verb} {self.file}"

    @property
    def written(self):
        """The text of a `write`, without its last newline."""
        escaped = (self.words.split(" ", 2) + [""] * 2)[2] if self.verb == "write" else ""
        return re.sub(r"\\(.)", lambda found: "\n" if found[1] == "n" else found[1], escaped)

    @property
    def answer(self):
        """The error and the reason, or `ok`."""
        return f"{self.error} {self.reason}" if self.error else "ok"


@dataclass(frozen=True)
class Script:
    """A script with its lines and the simulator's play of them."""

    name: str
    lines: tuple[str, ...]
    machine: Machine
    tasks: tuple[int, ...]
    commands: tuple[Command, ...]

    def without(self, numbers, program):
        """The same script with some of its lines left out."""
        lines = [LEFT_OUT if number in numbers else line for number, line in enumerate(self.lines)]
        return read_script(self.name, lines, program)


def read_script(name, lines, program):
    """Plays a script."""
    machine, tasks = head_of(lines)
    report = play([*lines], program=program)
    places = places_of(lines)
    commands = (command_of(command, places) for command in report.commands)
    return Script(name, tuple(lines), machine, tasks, tuple(command for command in commands if command.verb in PLAYED))


def command_of(command, places):
    return Command(command.words, places[command.thread, command.op], command.error, command.reason, command.text)


def head_of(lines):
    """The machine and the tasks of a script that the simulator plays."""
    machine, tasks = Machine(), []
    for words in (line.split() for line in lines):
        if words[:1] == ["machine"]:
            machine = Machine.of(" ".join(words[1:]))
        elif words[:1] == ["tasks"]:
            ranges = (word.partition("-") for word in words[1:])
            tasks += [task for first, _, last in ranges for task in range(int(first), int(last or first) + 1)]
        elif words[:1] == ["phase"]:
            break
    return machine, tuple(sorted(tasks))


def places_of(lines):
    """The line of each op, by its thread and its number there."""
    places, thread, op = {}, -1, 0
    for number, words in enumerate(line.split() for line in lines):
        if words[:1] == ["thread"]:
            thread, op = thread + 1, 0
        elif thread >= 0 and words and not words[0].startswith("#") and words[0] not in ("phase", "order"):
            places[thread, op] = number
            op += int(words[4]) if words[0] == "sweep" else 1
    return places


def check(script):
    """Refuses what cannot be compared."""
    machine = script.machine
    if (machine.cpus or machine.domains) % machine.domains:
        raise NotComparable(f"{machine.cpus} CPUs are no multiple of {machine.domains} domains, and the guest's caches have equally many each")
    if script.tasks and script.tasks[-1] >= FIRST_UNUSABLE_TASK:
        raise NotComparable(f"task {script.tasks[-1]} is not below {FIRST_UNUSABLE_TASK}, where the guest's own processes begin")


def notes(script):
    """What is to be known of a comparison that is made."""
    if script.machine.classes > MOST_CLASSES:
        yield f"{script.machine.classes} classes: a kernel makes groups of {MOST_CLASSES} at most"
