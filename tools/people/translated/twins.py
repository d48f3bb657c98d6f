"""A script of `resctrl_cdp` as one of `resctrl_sim`: each group is two, one that holds its data and one that holds its code, as the
hardware has two classes for it, and each task is two, one that loads and stores, and one that fetches."""
from itertools import permutations

from bikhnoun.telling import Stopped
from explained.limits import LAST_TASK, NAME_BYTES, TASKS
from resctrl_sim.programs import INVALID

from .asking import OK, Homes, done, masks_of
from .plain import Plain
from .reading import Command, words_of

DATA, CODE = "L3DATA", "L3CODE"
LEAST_STEP = 1000
EXCLUSIVE = "exclusive"


def twin_of(path, suffix):
    """The path of a group's twin."""
    return (path or "/") + suffix


def suffix_of(groups):
    """What follows a group's path in that of its twin, so that no two groups have one path."""
    suffixes = (f".code{number or ''}" for number in range(len(groups) + 1))
    return next(suffix for suffix in suffixes if groups.isdisjoint(twin_of(group, suffix) for group in groups))


def step_of(ranges):
    """What is added to the number of a task for that of its twin: a power of ten past all tasks."""
    last = max((last for _, last, _ in ranges), default=0)
    step = LEAST_STEP
    while step <= last:
        step *= 10
    if last + step > LAST_TASK:
        raise Stopped(f"task {last} leaves no number for its twin: {last} + {step} is past {LAST_TASK}", INVALID)
    if (count := sum(last - first + 1 for first, last, _ in ranges)) * 2 > TASKS:
        raise Stopped(f"{count} tasks are {2 * count} with their twins; a script of resctrl_sim has {TASKS} at most", INVALID)
    return step


def are_apart(one, other):
    """Whether two groups have no way in common in any cache."""
    return not any(ours & theirs for ours, theirs in zip(one, other))


class Twins:
    """A group: its paths by kind, its masks by kind, whether it is exclusive, and whether its twins are."""

    def __init__(self, path, suffix, masks):
        self.paths = {DATA: path, CODE: twin_of(path, suffix)}
        self.masks = masks
        self.is_exclusive = False
        self.are_exclusive = False

    def apart_with(self, masks):
        """Whether these masks, and the present ones of a kind that has none here, do not meet."""
        after = self.masks | masks
        return are_apart(after[DATA], after[CODE])

    def order_of(self, masks):
        """The kinds of these masks in an order in which exclusive twins can take them, or None."""
        for order in permutations(masks):
            if all(self.apart_with({kind: masks[kind] for kind in order[: at + 1]}) for at in range(len(order))):
                return order
        return None


class Translation:
    """The plain script of a script of code and data, while it is made."""

    def __init__(self, script):
        machine, ranges = script.machine, script.tasks.ranges
        self.commands = [item for item in script.items if isinstance(item, Command)]
        self.items = script.items
        self.suffix = suffix_of({command.group for command in self.commands if command.word == "mkdir"} | {""})
        self.step = step_of(ranges)
        self.homes = Homes(ranges)
        full = (2**machine.ways - 1,) * machine.domains
        self.groups = {"": Twins("", self.suffix, {DATA: full, CODE: full})}
        self.warnings = []
        self.done = done(script, self.commands)
        self.plain = Plain(self.keys(machine), self.about(), self.tasks(ranges))

    def keys(self, machine):
        """The machine line, but for the RMIDs."""
        keys = ("domains", "sets", "ways", "cpus", "min", "shareable", "sparse")
        return {key: getattr(machine, key) for key in keys} | {"classes": machine.classes // 2 * 2}

    def about(self):
        return (
            f"A script of code and data masks as a plain one: a group has the data, and the group with {self.suffix} after its path the code.",
            f"A task loads and stores; the task with {self.step} added to its number fetches its instructions.",
        )

    def tasks(self, ranges):
        """The tasks and their twins, as a line declares them."""
        both = [(first + more, last + more) for more in (0, self.step) for first, last, _ in ranges]
        return " ".join(f"{first}-{last}" if last > first else str(first) for first, last in both)

    def made(self):
        """The plain script, and what it does not carry."""
        self.plain.mkdir(self.groups[""].paths[CODE])
        self.move_twins("", self.homes.groups)
        for item in self.items:
            if isinstance(item, Command):
                self.command(next(self.done))
            else:
                self.plain.use(item.task + self.step if item.is_code else item.task, item.cpu, item.address, item.count, item.stride)
        return self.plain.text(), self.warnings

    def command(self, step):
        """Does what a command did. One that was refused did nothing, but for tasks that it may have moved."""
        command = step.command
        self.plain.comment(f"line {command.line}: {command.text}" + (f": {step.answer}" if step.answer != OK else ""))
        if command.word == "write" and command.file == "tasks" and command.group in self.groups:
            self.move(command.group, [int(line) for line in step.lines])
        elif step.answer != OK:
            return
        elif command.word == "write":
            getattr(self, f"write_{command.file}")(step)
        else:
            getattr(self, command.word)(step)

    def flush(self, step):
        self.plain.flush()

    def read(self, step):
        for path in self.groups[step.command.group].paths.values():
            self.plain.read(f"{path}/{step.command.file}")

    def mkdir(self, step):
        """Makes both twins. The masks that they start with are those of the group, unless one is exclusive whose twins are not."""
        path = step.command.group
        if len(path) - 1 + len(self.suffix) > NAME_BYTES:
            why = f"after a name of {len(path) - 1} bytes is no room for {self.suffix}; {NAME_BYTES} at most"
            raise Stopped(f"line {step.command.line}: {why}", INVALID)
        group = self.groups[path] = Twins(path, self.suffix, masks_of(step.lines))
        for kind, twin in group.paths.items():
            self.plain.mkdir(twin)
            if any(other.is_exclusive and not other.are_exclusive for other in self.groups.values()):
                self.plain.masks(twin, group.masks[kind])

    def rmdir(self, step):
        """Removes both twins. The tasks that fetch go to the default group's twin, and not to the default group."""
        path = step.command.group
        self.move_twins("", self.homes.left(path))
        for twin in self.groups.pop(path).paths.values():
            self.plain.rmdir(twin)

    def move(self, path, tasks):
        """Moves the tasks that are new in a group."""
        moved = self.homes.moved(path, tasks)
        self.plain.move(path, moved)
        self.move_twins(path, moved)

    def move_twins(self, path, tasks):
        """Moves what fetches for these tasks into a group's twin."""
        self.plain.move(self.groups[path].paths[CODE], [task + self.step for task in tasks])

    def write_mode(self, step):
        group = self.groups[step.command.group]
        group.is_exclusive = words_of(step.command.text)[2].text == EXCLUSIVE
        self.settle(group, step)

    def write_schemata(self, step):
        """Writes the masks that have changed, in an order in which none is refused; if there is none, the twins are shareable meanwhile."""
        group = self.groups[step.command.group]
        masks = masks_of(step.lines)
        new = {kind: masks[kind] for kind in masks if masks[kind] != group.masks[kind]}
        order = group.order_of(new) if group.are_exclusive else tuple(new)
        if order is None:
            self.set_mode(group, False)
            if are_apart(masks[DATA], masks[CODE]) and len(masks[DATA]) > 1:
                self.warn(step, "take masks of each other, are shareable meanwhile, and have no more windows until a flush, in no cache")
        for kind in order or new:
            self.plain.masks(group.paths[kind], new[kind])
        group.masks = masks
        self.settle(group, step)

    def settle(self, group, step):
        """Makes the twins exclusive where the group is, unless they share ways."""
        is_apart = are_apart(group.masks[DATA], group.masks[CODE])
        if group.is_exclusive and not is_apart:
            self.warn(step, "share ways, stay shareable, and have no windows")
        if (group.is_exclusive and is_apart) != group.are_exclusive:
            self.set_mode(group, not group.are_exclusive)

    def set_mode(self, group, are_exclusive):
        group.are_exclusive = are_exclusive
        for path in group.paths.values():
            self.plain.mode(path, EXCLUSIVE if are_exclusive else "shareable")

    def warn(self, step, what):
        self.warnings.append(f"line {step.command.line}: the twins of {step.command.group or '/'} {what}")
