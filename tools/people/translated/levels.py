"""A script of `resctrl_l2` as two of `resctrl_sim`: one of the L2 caches, and one of the L3 caches with the uses that missed there."""
import subprocess
from tempfile import TemporaryFile

from bikhnoun.telling import Stopped
from bikhnoun.workers import started
from explained.pair_machine import L2 as L2_DEFAULTS
from explained.lines import words_of
from resctrl_sim.programs import SIMULATOR, ended, required

from .asking import OK, Homes, done, masks_of
from .plain import Plain
from .reading import Command

LEVELS = L2, L3 = "L2", "L3"


def keys_of(script, level):
    """The machine line of the caches of a level, but for the RMIDs."""
    machine = script.machine
    keys = {key: getattr(machine, key) for key in ("domains", "sets", "ways", "classes", "cpus", "min", "shareable", "sparse")}
    if level == L3:
        return keys
    given = dict(word.text.split("=") for word in words_of(script.head[0])[1:])
    own = {key: int(given.get(key, default or machine.domains)) for key, default in L2_DEFAULTS.items()}
    return keys | {key.removeprefix("l2_"): value for key, value in own.items()} | {"shareable": 0}


def tasks_of(script):
    """The tasks, as a line declares them."""
    return " ".join(f"{first}-{last}" if last > first else str(first) for first, last, _ in script.tasks.ranges)


class Level:
    """The plain script of one level, while it is made."""

    def __init__(self, script, level, steps):
        self.script, self.level, self.steps = script, level, steps
        about = f"The {level} caches of a script of two levels, as a plain script" + (": the uses that missed in the L2." if level == L3 else ".")
        keys = keys_of(script, level)
        self.plain = Plain(keys, (about,), tasks_of(script))
        self.homes = Homes(script.tasks.ranges)
        self.masks = {"": (2 ** keys["ways"] - 1,) * keys["domains"]}

    def made(self, add):
        """The plain script, where this adds uses to it."""
        steps = iter(self.steps)
        for item in self.script.items:
            if isinstance(item, Command):
                self.command(next(steps))
            else:
                add(self.plain, item)
        return self.plain.text()

    def command(self, step):
        """Does what a command did. One that was refused did nothing, but for tasks that it may have moved."""
        command, plain = step.command, self.plain
        plain.comment(f"line {command.line}: {command.text}" + (f": {step.answer}" if step.answer != OK else ""))
        if command.word == "write" and command.file == "tasks":
            # The lines of a group that is not there are none.
            plain.move(command.group, self.homes.moved(command.group, map(int, step.lines)))
        elif step.answer != OK:
            return
        elif command.word == "write" and command.file == "mode":
            plain.mode(command.group, words_of(command.text)[2].text)
        elif command.word == "write":
            self.write_masks(command.group, masks_of(step.lines)[self.level])
        elif command.word == "flush":
            plain.flush()
        elif command.word == "read":
            plain.read(f"{command.group}/{command.file}")
        else:
            self.remade(step)

    def remade(self, step):
        """Makes or removes a group."""
        if step.command.word == "rmdir":
            self.homes.left(step.command.group)
            del self.masks[step.command.group]
            self.plain.rmdir(step.command.group)
        else:
            self.masks[step.command.group] = masks_of(step.lines)[self.level]
            self.plain.mkdir(step.command.group)

    def write_masks(self, group, masks):
        """Writes the masks of this level where they have changed."""
        if self.masks.get(group) != masks:
            self.plain.masks(group, masks)
            self.masks[group] = masks


def steps_of(script):
    """What the commands of a script do."""
    return list(done(script, [item for item in script.items if isinstance(item, Command)]))


def add_all(plain, uses):
    plain.use(uses.task, uses.cpu, uses.address, uses.count, uses.stride)


def l2_script(script, steps):
    """The plain script of the L2 caches."""
    return Level(script, L2, steps).made(add_all)


def missed(text):
    """The numbers of the accesses of a plain script that miss, by the proved simulator: the ops of its one thread are numbered from 0."""
    found = set()
    with TemporaryFile() as script:
        script.write(text.encode("ascii"))
        script.seek(0)
        with started([required(SIMULATOR), "step", "--quiet", "--journal"], stdin=script, stdout=subprocess.PIPE) as worker:
            for line in worker.stdout:
                if b" fill way " in line:
                    found.add(int(line.split(b" ", 2)[1].partition(b".")[2]))
            if status := worker.wait():
                raise Stopped(ended(SIMULATOR, status))
    return found


def l3_script(script, steps):
    """The plain script of the L3 caches: the L2 caches are played for the uses that miss there."""
    lower = Level(script, L2, steps)
    first_ops = []

    def add_below(plain, uses):
        first_ops.append(plain.ops)
        add_all(plain, uses)

    misses = missed(lower.made(add_below))
    firsts = iter(first_ops)

    def add_missed(plain, uses):
        first = next(firsts)
        for number in range(uses.count):
            if first + number in misses:
                plain.use(uses.task, uses.cpu, uses.address + number * uses.stride)

    return Level(script, L3, steps).made(add_missed)
