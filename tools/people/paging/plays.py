"""One play of a script by the program, and what the page has to know about it besides the report."""
from dataclasses import asdict, dataclass
import json
import re
import subprocess

from explained.lines import lines_of
from explained.reader import Fault, read_script
from resctrl_sim.programs import SIMULATOR, ended

from .marks import marks_of_fault, marks_of_play

FLAGS = ("--json", "--journal", "--windows")
HOW = ("step", "run")
MOST_SECONDS = 300


class Failed(Exception):
    """Why there is no play: the program could not be run, or it ended without an answer about the script."""


@dataclass(frozen=True)
class Play:
    """What a play gave: the facts for the page, and the bytes of the report, or None if the script is invalid."""

    facts: dict
    report: bytes | None


def run(program, data, how):
    """The exit status of the program and what it wrote."""
    try:
        done = subprocess.run([program, how, *FLAGS], input=data, stdout=subprocess.PIPE, timeout=MOST_SECONDS, check=False)
    except subprocess.TimeoutExpired:
        raise Failed(f"the play took longer than {MOST_SECONDS} seconds") from None
    except OSError as why:
        raise Failed(f"{program}: {why.strerror}") from None
    if done.returncode not in (0, 1):
        raise Failed(ended(SIMULATOR, done.returncode))
    return done.returncode, done.stdout


def runs_of(ops):
    """The first ops of a thread's lines as runs `[op, line, count]`: in a run each line follows the one before, and so do their ops."""
    runs = []
    for op, line in ops.items():
        if runs and (op, line) == (runs[-1][0] + runs[-1][2], runs[-1][1] + runs[-1][2]):
            runs[-1][2] += 1
        else:
            runs.append([op, line, 1])
    return runs


def phases_of(script):
    """For each phase the numbers of its threads."""
    return [[thread.number for thread in phase.threads] for phase in script.phases]


def read_report(text):
    """The report that the program wrote."""
    try:
        return json.loads(text)
    except ValueError:
        raise Failed("the program wrote no report in JSON: is it resctrl_sim?") from None


def facts_of(script, how, lines, report):
    """The facts of a script that was played."""
    return {
        "how": how,
        "machine": asdict(script.machine),
        "phases": phases_of(script),
        "ops": [runs_of(thread.ops) for thread in script.threads()],
        "marks": marks_of_play(script, lines, how, read_report(report)),
    }


def refused(script, how, said):
    """The play of an invalid script: the message of the program, and the mark at the word that it is about."""
    if not re.match(r"line \d+: ", said):
        raise Failed("the program ended with status 1, and named no line: is it resctrl_sim?")
    marks = marks_of_fault(script) if isinstance(script, Fault) else []
    return Play({"how": how, "said": said, "marks": marks}, None)


def play(program, data, how):
    """Plays a script. Failed says why there is no answer."""
    status, said = run(program, data, how)
    script = read_script(data)
    if status == 1:
        return refused(script, how, said.decode("ascii", "replace").strip())
    if isinstance(script, Fault):
        raise Failed(f"the program plays this script, and this tool reads `{script.program_line()}`: please report it")
    return Play(facts_of(script, how, lines_of(data), said), said)
