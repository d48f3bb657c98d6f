"""Scripts played on a mount with `--strict`, whose answers are then compared with a kernel's."""
from dataclasses import dataclass
import os

from resctrl_sim import mounted

from .answers import answers_of
from .rules import Strict

STATUS = "info/last_cmd_status"


@dataclass(frozen=True)
class Pair:
    """The two answers to a command, as they are compared."""

    command: object
    mount: str
    kernel: str


def play_strictly(script, program):
    """The answers of a mount with `--strict` to the commands of a script."""
    words = ["--strict", "--pids", "--program", program]
    with mounted(script.machine, script.tasks, words=words) as tree:
        raw = [(*do(tree, command), read(tree / STATUS)[1]) for command in script.commands]
    return answers_of([command.words for command in script.commands], raw)


def do(tree, command):
    """An error's number and a text."""
    path = tree / command.path.strip("/")
    doing = {"mkdir": make, "rmdir": remove, "read": read, "list": listed, "write": lambda path: write(path, command.written), "tick": lambda path: (0, "")}
    return doing[command.verb](path)


def answered(call):
    """A call, as an error's number and a text."""

    def answer(*given):
        try:
            return 0, call(*given) or ""
        except OSError as why:
            return why.errno, ""

    return answer


make, remove = answered(os.mkdir), answered(os.rmdir)


@answered
def read(path):
    return path.read_bytes().decode("latin-1")


@answered
def listed(path):
    return "".join(f"{name}\n" for name in sorted(os.listdir(path)))


@answered
def write(path, text):
    file = os.open(path, os.O_WRONLY)
    try:
        os.write(file, (text + "\n").encode("latin-1"))
    finally:
        os.close(file)


def pairs(comparison, answers):
    """A mount's answers with a kernel's, up to the first rule that `--strict` does not follow, or follows in part."""
    script, found = comparison.script, comparison.found
    for (command, kernel), mount in zip(comparison.pairs, answers):
        rule = found[command.line].rule if command.line in found else None
        if rule and rule.strict is Strict.NO:
            return
        yield Pair(command, shown(script, command, mount), shown(script, command, kernel))
        if rule and rule.strict is Strict.IN_PART:
            return


def shown(script, command, answer):
    """An answer as it is compared: of tasks those that the script declares, and the status after it."""
    lines = answer.lines
    if command.file == "tasks":
        lines = [line for line in sorted(lines, key=int) if int(line) in script.tasks]
    status = answer.status.rstrip("\n").replace("\n", " / ")
    return f"{answer.error_name} {'|'.join(lines)} ({status})"
