"""Storms of commands beside many groups, tasks and names."""
from storms.limits import CLASSES, CPUS, DOMAINS, LAST_TASK, LONG_TASKS, RMIDS, WAYS
from storms.row import repeated
from storms.states import State, crowd, groups, halves, limbo, masks, monitors, setup, tasks

EIGHT = f"machine domains={DOMAINS} sets=64 ways={WAYS} classes={CLASSES} rmids={RMIDS} cpus={CPUS}"


def state(machine, lines, slices=1, rmids=16, ids="1"):
    """A state whose groups and tasks the storm names itself."""
    return State(machine, slices, rmids, ids, lines, None, None, None, None, None)


def no_rmid():
    """Ten control groups and 245 monitor groups, which take all RMIDs."""
    lines = [f"mkdir /g{at}" for at in range(10)] + [f"mkdir /mon_groups/m{at}" for at in range(245)]
    return state(EIGHT, lines, DOMAINS, RMIDS)


def no_space():
    """An exclusive group that has all ways of the last cache."""
    text = "L3:" + ";".join(f"{domain}=1" for domain in range(DOMAINS - 1)) + f";{DOMAINS - 1}={1:x}"
    lines = ["write /schemata " + text, "mkdir /last", f"write /last/schemata L3:{DOMAINS - 1}=fffffffe"]
    lines += [f"write /last/schemata L3:{domain}=2" for domain in range(DOMAINS - 1)] + ["write /last/mode exclusive"]
    lines += ["write /mode exclusive"] + [f"mkdir /mon_groups/m{at}" for at in range(RMIDS - 10)]
    return state(EIGHT, lines, DOMAINS, RMIDS)


def one_cache():
    """62 control groups and 191 monitor groups over one cache."""
    lines = [f"mkdir /g{at}" for at in range(62)] + [f"mkdir /mon_groups/m{at}" for at in range(191)]
    return state(f"machine ways={WAYS} classes={CLASSES} rmids={RMIDS}", lines, 1, RMIDS)


def all_rmids():
    """A machine of 256 RMIDs that are all free."""
    return state(f"machine rmids={RMIDS}", [], 1, RMIDS)


def all_letters():
    """Every way of eight caches has a letter of `bit_usage`."""
    return state(f"machine domains={DOMAINS} sets=1 ways={WAYS}", [], DOMAINS)


def all_tasks():
    """4,096 tasks with ids of ten digits in the default group."""
    return state("machine", [], ids=LONG_TASKS)


def two_rmids():
    """4,096 tasks on a machine of two RMIDs, where the removal of a group weighs least."""
    return state("machine rmids=2", [], rmids=2, ids=LONG_TASKS)


def many_ids():
    """4,096 tasks with short ids, of which a text may hold the first 2,047 times."""
    return state("machine", ["mkdir /a"], ids="1-4096")


def last_task():
    """4,096 tasks, the last of them in a group."""
    return state("machine", ["mkdir /a", f"write /a/tasks {LAST_TASK}"], ids=LONG_TASKS)


def scan(name, words, made, lines, **more):
    """A row of lines in a state that this makes."""
    return repeated(name, words, made(), lines, **more)


LOCK, LEAVE = "write /a/mode pseudo-locksetup", "write /a/mode shareable"

ROWS = (
    scan("list_run_quiet", "run --quiet", monitors, ["list /mon_groups"]),
    scan("read_tasks_run_quiet", "run --quiet", all_tasks, ["read /tasks"]),
    scan("bit_usage_run_quiet", "run --quiet", all_letters, ["read /info/L3/bit_usage"]),
    scan("setup_refused", "step", last_task, [LOCK]),
    scan("setup_refused_json", "step --windows --json", last_task, [LOCK]),
    scan("setup_tasks", "step", last_task, [LOCK, LEAVE]),
    scan("mkdir_rmids_8", "step", no_rmid, ["mkdir /x"]),
    scan("mkdir_rmids_8_json", "step --windows --json", no_rmid, ["mkdir /x"]),
    scan("mkdir_nospace_8", "step", no_space, ["mkdir /x"]),
    scan("rmdir_tasks", "step", two_rmids, ["mkdir /a", "rmdir /a"]),
    scan("rmdir_mon_tasks", "step", two_rmids, ["mkdir /mon_groups/m", "rmdir /mon_groups/m"]),
    scan("schemata_many", "step", one_cache, ["write /g61/schemata L3:0=3", "write /g61/schemata L3:0=1"]),
    scan("rmdir_many_mon", "step", all_rmids, ["mkdir /a", *[f"mkdir /a/mon_groups/m{at}" for at in range(RMIDS - 2)], "rmdir /a"]),
    scan("read_one_task", "step --quiet", tasks, ["read /a/tasks"]),
    scan("read_half_tasks_run", "run --quiet", halves, ["read /a/mon_groups/m/tasks"]),
    scan("mode_beside_setup", "step", setup, [f"write /a/mode {word}" for word in ("exclusive", "shareable")]),
    scan("limbo_mkdir", "step", limbo, ["mkdir /x"]),
    scan("setup_groups", "step", setup, ["write /a/mode pseudo-locksetup"]),
    scan("mkdir_monitor_crowd", "step", crowd, ["mkdir /g62/mon_groups/x"]),
    scan("mkdir_monitor_windows", "step --windows", crowd, ["mkdir /g62/mon_groups/x"]),
    scan("read_monitor_windows", "step --windows", crowd, ["read /g62/mon_groups/m191/tasks"]),
    scan("none_crowd", "step", crowd, ["list /none"]),
    scan("cpus_crowd", "step", crowd, ["write /g62/cpus 1"]),
    scan("cpus_monitor_crowd", "step", crowd, ["write /g62/mon_groups/m191/cpus 1"]),
    scan("touch_crowd", "step", crowd, ["touch /none 0 1 0"]),
    scan("tasks_same", "step --json --windows", many_ids, ["write /a/tasks " + "1," * 2_047]),
    scan("bit_usage", "step", all_letters, ["read /info/L3/bit_usage"]),
    scan("read_tasks", "step", all_tasks, ["read /tasks"])._replace(count=20_000),
    scan("list_root", "step", groups, ["list /"])._replace(count=60_000),
)
