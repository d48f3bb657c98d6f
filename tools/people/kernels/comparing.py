"""Plays scripts on a kernel and finds where it answers differently.

A command that only one of the two accepts leaves two trees that are not the same. It is told, and then left out on both sides, and the
script is played once more without it: so what follows is compared too. Where a text alone makes the difference, the trees do not matter,
and all such commands are left out at once. To go on after such a command would compare two different trees; to end at it would leave most
of a script uncompared.
"""
from collections import defaultdict
from concurrent.futures import ThreadPoolExecutor
from dataclasses import dataclass, field

from . import occupancy
from .answers import answers_of
from .booting import LOCKING_MODEL, Boot, boot
from .differences import differences
from .rules import means_otherwise, rule_of
from .scripts import Script

# Scripts in one boot.
MOST_SCRIPTS = 250
MOST_ROUNDS = 40
SET_UP = None
# The file whose text is compared only if the kernel's counters have the simulator's lines.
COUNTERS = "llc_occupancy"


@dataclass(frozen=True)
class Options:
    """How scripts are compared."""

    built: object
    program: str | None = None
    model: int = LOCKING_MODEL
    counts_lines: bool = False
    goes_on: bool = False
    jobs: int = 1


@dataclass(frozen=True)
class Found:
    """A difference with its rule, or None where no rule is known. One that `follows` may be there because the trees have parted."""

    difference: object
    rule: object
    follows: bool = False

    @property
    def is_unknown(self):
        return self.rule is None and not self.follows

    @property
    def is_parting(self):
        """Whether the two trees may differ from here on."""
        return self.difference.parts or self.is_unknown or (self.rule is not None and self.rule.is_silent)


    @property
    def is_left_out(self):
        """Whether what follows is compared without it."""
        return not self.follows and (self.difference.parts or (self.rule is not None and self.rule.is_silent and self.rule.is_of_text))


@dataclass
class Comparison:
    """What was found of a script. `pairs` has the commands of its last play with the kernel's answers."""

    script: Script
    found: dict = field(default_factory=dict)
    left_out: set = field(default_factory=set)
    pairs: list = field(default_factory=list)
    complaints: list = field(default_factory=list)
    is_done: bool = False

    @property
    def compared(self):
        """How many commands were compared, with those that were left out after it."""
        return len(self.pairs) + len(self.left_out)

    @property
    def in_order(self):
        """What was found, by lines of the script."""
        return [self.found[line] for line in sorted(self.found)]


def compare(scripts, options):
    """The comparisons of scripts."""
    comparisons = [Comparison(script) for script in scripts]
    for _ in range(MOST_ROUNDS):
        waiting = [comparison for comparison in comparisons if not comparison.is_done]
        if not waiting:
            break
        play_round(waiting, options)
    return comparisons


def play_round(comparisons, options):
    """Plays each script once, those of one machine in one boot."""
    boots = defaultdict(list)
    for comparison in comparisons:
        how = Boot(comparison.script.machine, options.model, not options.counts_lines, options.counts_lines)
        boots[how].append(comparison)
    parts = [(how, some[at : at + MOST_SCRIPTS]) for how, some in boots.items() for at in range(0, len(some), MOST_SCRIPTS)]
    with ThreadPoolExecutor(options.jobs) as pool:
        list(pool.map(lambda part: play_boot(*part, options), parts))


def play_boot(how, comparisons, options):
    """Plays scripts in one boot."""
    lists = [lines_of(comparison.script, options) for comparison in comparisons]
    raw, complaints = boot(options.built, how, [[line for line, _ in lines] for lines in lists])
    raw += [[]] * (len(lists) - len(raw))
    for comparison, lines, answered in zip(comparisons, lists, raw):
        places = [place for line, place in lines if not line.startswith("tasks ")]
        if len(answered) == len(places):
            take(comparison, places, answered, options)
        else:
            comparison.complaints += [f"the kernel gave {len(answered)} answers of {len(places)}", *complaints]
            comparison.is_done = True


def lines_of(script, options):
    """The guest's lines, each with the place of its command, or None where it only sets something up."""
    lines = [("tasks " + " ".join(map(str, script.tasks)), SET_UP)] if script.tasks else []
    lines.append((guest_write("/info/L3_MON/max_threshold_occupancy", str(script.machine.threshold)), SET_UP))
    setting = occupancy.lines_before(script, options.program) if options.counts_lines else {}
    for at, command in enumerate(script.commands):
        lines += [(line, SET_UP) for line in setting.get(command.line, ())]
        lines.append((guest_line(command), at))
    return lines


def guest_line(command):
    if command.verb == "write":
        return guest_write(command.path, command.written)
    return command.words


def guest_write(path, text):
    return f"write {path} {(text + chr(10)).encode('latin-1').hex()}"


def take(comparison, places, raw, options):
    """Takes in the answers of a play."""
    script = comparison.script
    words = [None if at is SET_UP else script.commands[at].words for at in places]
    answers = [None] * len(script.commands)
    for at, answer in zip(places, answers_of(words, raw, has_task_lists=options.built.version.has_task_lists)):
        if at is not SET_UP:
            answers[at] = answer
    comparison.pairs = list(zip(script.commands, answers))
    parted, parting = False, set()
    for difference in differences(script, answers, means_otherwise):
        if difference.command.file == COUNTERS and not options.counts_lines:
            continue
        line = difference.command.line
        rule = rule_of(difference, options.built.version.name)
        found = Found(difference, rule, follows=parted and not (rule and rule.is_of_text))
        if not found.follows or options.goes_on:
            comparison.found.setdefault(line, found)
        if found.is_left_out:
            parting.add(line)
        parted = parted or found.is_parting
    comparison.is_done = options.goes_on or not parting
    if not comparison.is_done:
        comparison.left_out |= parting
        comparison.script = script.without(parting, options.program)
