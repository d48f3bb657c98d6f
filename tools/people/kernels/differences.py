"""Where a kernel's answer to a command is not the simulator's.

Limbo is emptied after each command, unless occupancy is asked for. A kernel tests RMIDs by the clock, and most scripts would differ by
nothing else.
"""
from dataclasses import dataclass
from enum import Enum
import errno

from resctrl_sim.kernel_words import are_words_of

# Files that only a kernel's mount option `debug` shows.
DEBUG_FILES = ("mon_hw_id", "ctrl_hw_id")


class Kind(Enum):
    """How two answers differ."""

    ACCEPTED = "the simulator accepts, a kernel refuses"
    REFUSED = "the simulator refuses, a kernel accepts"
    MEANING = "both accept, and it may mean something else"
    ERROR = "another error"
    WORDS = "other words in last_cmd_status"
    TEXT = "another text"


# After these the two trees are not the same any more.
PARTING = (Kind.ACCEPTED, Kind.REFUSED, Kind.MEANING)
CHANGING = ("mkdir", "rmdir", "write")


@dataclass(frozen=True)
class Difference:
    """A command that the two answered otherwise. `at` is its place among the commands; `state` has words for what came before it."""

    at: int
    command: object
    state: str
    kind: Kind
    simulator: str
    kernel: str

    @property
    def parts(self):
        return self.kind in PARTING


class State:
    """What came before a command, as the simulator's answers tell it: the mode of each group, what may be in limbo, and which groups have
    masks with gaps that they were made with."""

    def __init__(self, machine):
        self.machine = machine
        self.modes = {}
        self.limbo = "nothing freed"
        self.first_masks = set()

    def mode(self, group):
        return self.modes.get(group, "monitored" if "/mon_groups/" in group else "shareable")

    def words(self, command):
        """The mode of the group that a command is on, what may be in limbo, and whether a group has first masks with gaps."""
        return f"{self.mode(command.group)}, {self.limbo}, {'first masks' if self.first_masks else 'written masks'}"

    def follow(self, command):
        """Takes in a command and its answer."""
        if command.verb == "tick":
            self.limbo = "tested"
        elif command.verb == "mkdir" and (command.reason or "").startswith("no space"):
            self.limbo = "taken by a refused mkdir"
        elif not command.error:
            self.follow_accepted(command)

    def follow_accepted(self, command):
        if command.target == "mkdir control" and self.machine.sparse:
            self.first_masks.add(command.path)
        elif command.verb == "rmdir":
            self.modes.pop(command.path, None)
            self.first_masks.discard(command.path)
            self.limbo = "freed"
        elif command.verb == "write" and command.file == "mode":
            self.modes[command.group] = command.written.strip(" \t")
        elif command.verb == "write" and command.file == "schemata" and self.mode(command.group) == "pseudo-locksetup":
            self.modes[command.group] = "pseudo-locked"
        elif command.verb == "write" and command.file == "schemata" and command.written.count("=") >= self.machine.domains:
            self.first_masks.discard(command.group)


def differences(script, answers, means_otherwise):
    """All differences of a play. `means_otherwise` tells of a write that both accept whether a kernel reads its text in another way."""
    state = State(script.machine)
    for at, (command, answer) in enumerate(zip(script.commands, answers)):
        if answer is not None and (found := kind_of(script, command, answer, means_otherwise)):
            kind, simulator, kernel = found
            yield Difference(at, command, state.words(command), kind, simulator, kernel)
        state.follow(command)


def kind_of(script, command, answer, means_otherwise):
    """How two answers differ, and the two as they are shown, or None."""
    number = getattr(errno, command.error) if command.error else 0
    if number != answer.error:
        return kind_of_errors(command, answer), command.answer, answer.shown
    if number:
        same = are_words_of(command.reason, answer.told.rstrip("\n"), command.file)
        return None if same else (Kind.WORDS, command.answer, answer.shown)
    if command.text is not None:
        ours, kernels = lines_of(script, command, list(command.text)), lines_of(script, command, answer.lines)
        return None if ours == kernels else (Kind.TEXT, "|".join(ours), "|".join(kernels))
    return (Kind.MEANING, "ok", "ok") if means_otherwise(command) else None


def kind_of_errors(command, answer):
    if command.verb not in CHANGING or (command.error and answer.error):
        return Kind.ERROR
    return Kind.REFUSED if command.error else Kind.ACCEPTED


def lines_of(script, command, lines):
    """Lines that can be compared: of tasks those that are declared, rising; of a status whether it is `ok`; listings sorted."""
    if command.verb == "list":
        return sorted(line for line in lines if line not in DEBUG_FILES)
    if command.file == "tasks":
        there = set(script.tasks)
        return [str(task) for task in sorted(map(int, lines)) if task in there]
    if command.file == "last_cmd_status":
        return ["ok" if lines == ["ok"] else "a reason"]
    return lines
