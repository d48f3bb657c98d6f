"""States of the tree in which a command may take long: each a machine, the lines that lead there, and what commands name in it."""
from collections import namedtuple

from storms.limits import CLASSES, CPUS, DOMAINS, LAST_TASK, LONG_TASKS, RMIDS, WAYS, FIRST_TASK, long_name

# The slices and RMIDs of the machine; a control group, a monitor group, a region and a task that are there; the ways of the group.
State = namedtuple("State", "machine slices rmids tasks lines group monitor region task mask")

EIGHT = range(DOMAINS)
# Ids that one text of `tasks` may hold.
IN_A_TEXT = 370


def masks(mask):
    """A text of `schemata` with the same mask in eight caches."""
    return "L3:" + ";".join(f"{domain}={mask:x}" for domain in EIGHT)


def moved(group, first, last):
    """Writes that move these tasks, as many in each as its text may hold."""
    for at in range(first, last + 1, IN_A_TEXT):
        yield f"write {group}/tasks " + ",".join(str(task) for task in range(at, min(at + IN_A_TEXT, last + 1)))


def few():
    """One group and one monitor group in eight caches."""
    lines = ["mkdir /a", "mkdir /a/mon_groups/m", "write /a/tasks 1", "write /a/schemata " + masks(0xF)]
    machine = f"machine domains={DOMAINS} sets=64 ways={WAYS} classes={CLASSES} rmids={RMIDS} cpus={CPUS}"
    return State(machine, DOMAINS, RMIDS, "1-2", lines, "/a", "/a/mon_groups/m", None, 1, 0xF)


def tasks():
    """4,096 tasks, the last of them in a group and its monitor group."""
    lines = ["mkdir /a", "mkdir /a/mon_groups/m", f"write /a/tasks {LAST_TASK}", f"write /a/mon_groups/m/tasks {LAST_TASK}"]
    return State("machine", 1, 16, LONG_TASKS, lines, "/a", "/a/mon_groups/m", None, LAST_TASK, 0xF)


def halves():
    """4,096 tasks, half of them in a group, and a monitor group of it with a quarter."""
    middle, quarter = FIRST_TASK + 2_048, FIRST_TASK + 3_072
    lines = ["mkdir /a", "mkdir /a/mon_groups/m", *moved("/a", middle, LAST_TASK), *moved("/a/mon_groups/m", quarter, LAST_TASK)]
    return State("machine", 1, 16, LONG_TASKS, lines, "/a", "/a/mon_groups/m", None, LAST_TASK, 0xF)


def monitors():
    """255 monitor groups with the longest names."""
    names = [f"/mon_groups/{long_name(at)}" for at in range(RMIDS - 1)]
    lines = [f"mkdir {name}" for name in names] + [f"write {names[-1]}/tasks 1"]
    machine = f"machine domains={DOMAINS} sets=64 ways={WAYS} rmids={RMIDS} cpus={CPUS}"
    return State(machine, DOMAINS, RMIDS, "1-2", lines, "/", names[-1], None, 1, 0xF)


def groups():
    """63 groups with the longest names and 192 monitor groups of the last of them, in eight caches."""
    names = [f"/{long_name(at)}" for at in range(CLASSES - 1)]
    inside = [f"{names[-1]}/mon_groups/m{at}" for at in range(RMIDS - CLASSES)]
    lines = [f"mkdir {name}" for name in names + inside] + [f"write {names[-1]}/tasks 1"]
    machine = f"machine domains={DOMAINS} sets=64 ways={WAYS} classes={CLASSES} rmids={RMIDS} cpus={CPUS}"
    return State(machine, DOMAINS, RMIDS, "1-2", lines, names[-1], inside[-1], None, 1, 0xF)


def crowd():
    """The same with short names: as many commands as a script may have."""
    inside = [f"/g62/mon_groups/m{at}" for at in range(RMIDS - CLASSES)]
    lines = [f"mkdir /g{at}" for at in range(CLASSES - 1)] + [f"mkdir {name}" for name in inside] + ["write /g62/tasks 1"]
    machine = f"machine domains={DOMAINS} sets=64 ways={WAYS} classes={CLASSES} rmids={RMIDS} cpus={CPUS}"
    return State(machine, DOMAINS, RMIDS, "1-2", lines, "/g62", inside[-1], None, 1, 0xF)


def exclusive():
    """31 exclusive groups with a way each of eight caches, and the rest of the groups and RMIDs taken."""
    lines = ["write /schemata " + masks(1 << WAYS - 1)]
    for at in range(WAYS - 1):
        lines += [f"mkdir /g{at}", f"write /g{at}/schemata {masks(1 << at)}", f"write /g{at}/mode exclusive"]
        lines += [f"mkdir /g{at}/mon_groups/m", f"write /g{at}/tasks {at + 1}"]
    machine = f"machine domains={DOMAINS} sets=64 ways={WAYS} classes={CLASSES} rmids={RMIDS} cpus={CPUS}"
    return State(machine, DOMAINS, RMIDS, "1-31", [*lines, "flush"], "/g30", "/g30/mon_groups/m", None, 31, 1 << 30)


def regions():
    """A region in each of eight caches, of many ways, and groups in `pseudo-locksetup` beside them."""
    lines = ["write /schemata " + masks(1)]
    for at in EIGHT:
        lines += [f"mkdir /r{at}", f"write /r{at}/mode pseudo-locksetup", f"write /r{at}/schemata L3:{at}=fffffff0"]
    for at in range(40):
        lines += [f"mkdir /s{at}", f"write /s{at}/mode pseudo-locksetup"]
    lines += ["mkdir /a", "mkdir /a/mon_groups/m", "write /a/tasks 1"]
    machine = f"machine domains={DOMAINS} sets=1024 ways={WAYS} classes={CLASSES} rmids={RMIDS} cpus={CPUS}"
    return State(machine, DOMAINS, RMIDS, "1-2", lines, "/a", "/a/mon_groups/m", "/r7", 1, 0x1)


def setup():
    """62 groups in `pseudo-locksetup` beside 4,096 tasks."""
    lines = []
    for at in range(62):
        lines += [f"mkdir /s{at}", f"write /s{at}/mode pseudo-locksetup"]
    lines += ["mkdir /a", "mkdir /a/mon_groups/m", f"write /a/tasks {LAST_TASK}"]
    machine = f"machine domains={DOMAINS} sets=64 ways={WAYS} classes={CLASSES} rmids={RMIDS} cpus={CPUS}"
    return State(machine, DOMAINS, RMIDS, LONG_TASKS, lines, "/a", "/a/mon_groups/m", None, LAST_TASK, 0xF)


def limbo():
    """250 RMIDs in limbo."""
    lines = ["mkdir /a", "mkdir /a/mon_groups/m"]
    for at in range(250):
        lines += [f"mkdir /g{at}", f"write /g{at}/tasks 1", f"access 1 0 {64 * at}", f"rmdir /g{at}"]
    machine = f"machine sets=4096 ways={WAYS} classes={CLASSES} rmids={RMIDS}"
    return State(machine, 1, RMIDS, "1-2", [*lines, "write /a/tasks 1"], "/a", "/a/mon_groups/m", None, 1, 0xF)


def slices():
    """32 slices in all, and 256 RMIDs."""
    lines = ["mkdir /a", "mkdir /a/mon_groups/m", "write /a/tasks 1"]
    machine = f"machine domains=2 slices=16 sets=64 ways={WAYS} classes={CLASSES} rmids={RMIDS} cpus={CPUS}"
    return State(machine, 32, RMIDS, "1-2", lines, "/a", "/a/mon_groups/m", None, 1, 0xF)


STATES = {make.__name__: make for make in (few, tasks, halves, monitors, groups, crowd, exclusive, regions, setup, limbo, slices)}
