"""Storms of the planner, the checker, the program of orders, and the programs of two masks."""
from storms import caches, trees, windows
from storms.limits import DOMAINS, LONG_TASKS, MOST_WEIGHT, SLICES
from storms.row import Row

# The limits of a script of two masks.
COMMANDS, USES = 20_000, 2_000_000
FAR = 64 * 2_000
MEGABYTE = 2**20


def most_uses(script, count):
    """Lines of a trace that use 130 lines of memory each, none of which a set still has."""
    script.writelines(f" M {at % 64:x}3f,4096\n" for at in range(count))


def turn_of_most_uses(script, count):
    """The same in one turn of a program."""
    script.write("turn 0\n")
    most_uses(script, count)


def turns(script, count):
    """A turn of another one of 32 programs for each use."""
    script.writelines(f"turn {at % 32}\n L {64 * (at // 32):x},4\n" for at in range(count))


def one_set(script, count):
    """Uses of 33 lines in turn, of one set."""
    script.writelines(f" L {64 * 65_536 * (at % 33):x},1\n" for at in range(count))


def junk(script, count):
    """Lines that are skipped."""
    script.write("==1==\n" * count)


def div_sets(script, count):
    """63 groups that use all sets of a large cache in turn."""
    script.write("machine sets=65536 ways=16 classes=64 rmids=64\ntasks 1-63\nphase\nthread\n")
    for at in range(63):
        script.write(f"mkdir /g{at}\nwrite /g{at}/tasks {at + 1}\n")
    script.writelines(f"sweep {at + 1} 0 {at << 40} {count // 63} 64\n" for at in range(63))


def div_one_set(script, count):
    """63 groups with accesses to one set in turn, each to lines of its own."""
    script.write("machine sets=1 ways=32 classes=64 rmids=64\ntasks 1-63\nphase\nthread\n")
    for at in range(63):
        script.write(f"mkdir /g{at}\nwrite /g{at}/tasks {at + 1}\n")
    script.writelines(f"sweep {at % 63 + 1} 0 {at % 63 << 40} 40 64\n" for at in range(count // 40))


def bad_first_line(script, count):
    """Accesses after a machine that is none."""
    script.write("machine ways=0\ntasks 1\nphase\nthread\n" + "access 1 0 0\n" * count)


def tree_lines(script, count):
    """Commands that a journal tells and its script does not have."""
    script.write("machine sets=1 ways=4\ntasks 1\nphase\nthread\nflush\naccess 1 0 0\njournal 1\n")
    script.write("tree 0 0 0 0 1 0\n" * count + "slice 0 0 0\nend\n")


def tree_flushes(script, count):
    """A command of the script that a journal tells over and over."""
    script.write("machine sets=1 ways=4\ntasks 1\nphase\nthread\nflush\naccess 1 0 0\njournal 1\n")
    script.write("tree 0 0 0 0 0\n" * count + "slice 0 0 0\nend\n")


def slice_lines(script, count):
    """Flushes that a journal tells over and over in each slice. The accesses are there so that a slice may have so many entries."""
    each = count // SLICES
    script.write(f"machine domains=2 slices={SLICES // 2} sets=16 ways=4 cpus=2\ntasks 1\nphase\nthread\nflush\nsweep 1 0 0 {each} 64\n")
    script.write("journal 1\ntree 0 0 0 0 0\n")
    for number in range(SLICES):
        script.write(f"slice {number * 2 // SLICES} {number % (SLICES // 2)} {each}\n" + "flush 0 0 1\n" * each)
    script.write("end\n")


def pair_tasks(script, count):
    """Reads of 4,096 ids of ten digits."""
    script.write(f"machine\ntasks {LONG_TASKS}\n" + "read /tasks\n" * count)


def pair_tasks_same(script, count, machine="machine"):
    """Texts that move one task two thousand times."""
    script.write(f"{machine}\ntasks 1-4096\nmkdir /a\n" + ("write /a/tasks " + "1," * 2_047 + "\n") * count)


def pair_tasks_same8(script, count):
    """The same before a flush of eight caches, in none of which a group is ever exclusive."""
    pair_tasks_same(script, count, f"machine domains={DOMAINS}")
    script.write("flush\n")


def pair_groups(machine, texts):
    """As many exclusive groups as two masks of 32 ways let be, with a task each."""
    lines = [machine, "tasks 1-31"]
    lines += [f"write /schemata {text}:0=80000000" for text in texts]
    for at in range(31):
        lines += [f"mkdir /g{at}"] + [f"write /g{at}/schemata {text}:0={1 << at:x}" for text in texts]
        lines += [f"write /g{at}/mode exclusive", f"write /g{at}/tasks {at + 1}"]
    return "\n".join(lines) + "\n"


def l2_windows(script, count):
    """A window of each of 31 groups after each flush, with an access of each."""
    script.write(pair_groups("machine sets=64 ways=32 l2_sets=64 l2_ways=32 classes=32", ("L2", "L3")))
    uses = "".join(f"access {tenant + 1} 0 {64 * tenant}\n" for tenant in range(31))
    script.write(("flush\n" + uses) * count)


def l2_modes(script, count):
    """A mode that changes, and a flush, beside 30 exclusive groups."""
    script.write(pair_groups("machine sets=64 ways=32 l2_sets=64 l2_ways=32 classes=32", ("L2", "L3")))
    script.write("write /g0/mode shareable\nflush\nwrite /g0/mode exclusive\nflush\n" * (count // 4))


def l2_scatter(script, count):
    """One window over lines far from one another."""
    script.write("machine sets=1024 ways=16\ntasks 1\nmkdir /a\nwrite /schemata L2:0=c\nwrite /schemata L3:0=ff00\n")
    script.write("write /a/schemata L2:0=3\nwrite /a/schemata L3:0=ff\nwrite /a/tasks 1\nwrite /a/mode exclusive\nflush\n")
    script.write(f"sweep 1 0 0 {count} {FAR}\n")


def cdp_spread(script, count):
    """A trace over lines far from one another, in a window of code and data."""
    script.write("machine sets=1024 ways=16 classes=4\ntasks 1\nwrite /schemata L3CODE:0=f\nwrite /schemata L3DATA:0=fff0\n")
    script.write("write /mode exclusive\nflush\ntrace 1 0\n")
    script.writelines(f" L {FAR * at:x},8\n" for at in range(count))
    script.write("end\n")


def cdp_toggle(script, count):
    """A mask that is written over and over beside groups that are exclusive in eight caches."""
    machine = f"machine domains={DOMAINS} sets=64 ways=32 classes=32"
    script.write(pair_groups(machine, ("L3CODE", "L3DATA")).replace("1-31", "1-32"))
    script.write("write /g0/schemata L3CODE:0=1\n" * count)


def named(rows, *names):
    """The rows with these names, which another program plays too."""
    return [row for row in rows if row.name in names]


def planned(rows):
    return [row._replace(name=f"divide_{row.name}", program="resctrl_plan", words=["divide"]) for row in rows]


def exported(rows):
    return [row._replace(name=f"export_{row.name}", program="resctrl_check", words=["export", "step"]) for row in rows]


def checked(rows, program="resctrl_check", words=("check",)):
    return [row._replace(name=f"{words[0]}_{row.name}", program=program, words=list(words), export=["export", "step"]) for row in rows]


SLOW_TREES = named(trees.ROWS, "setup_refused", "mkdir_rmids_8", "rmdir_tasks", "mkdir_monitor_crowd")
SLOW_WINDOWS = named(windows.ROWS, "win_scatter", "win_toggle8")

ROWS = (
    Row("curve_most_uses", "resctrl_plan", ["curve", "1", "32"], 16 * MEGABYTE // 12, most_uses, "its trace: 0.3 s a MB"),
    Row("filter_most_uses", "resctrl_plan", ["filter", "--l1", "1x32"], 4 * MEGABYTE // 12, most_uses, "its trace, 170 times as long"),
    Row("share_most_uses", "resctrl_plan", ["share", "1", "32", "1:1"], 16 * MEGABYTE // 12, turn_of_most_uses, "its stream: 0.6 s a MB"),
    Row("share_turns", "resctrl_plan", ["share", "65536", "32", *["1:1"] * 32], MOST_WEIGHT, turns),
    Row("curve_one_set", "resctrl_plan", ["curve", "65536", "32"], MOST_WEIGHT, one_set),
    Row("curve_junk", "resctrl_plan", ["curve", "1", "1"], 10_000_000, junk),
    Row("div_sets", "resctrl_plan", ["divide"], MOST_WEIGHT - 1_000, div_sets),
    Row("div_one_set", "resctrl_plan", ["divide"], MOST_WEIGHT - 1_000, div_one_set),
    *planned(named(trees.ROWS, "setup_refused", "setup_tasks", "rmdir_tasks")),
    Row("check_bad_first_line", "resctrl_check", ["check"], 8_000_000, bad_first_line),
    Row("check_tree_lines", "resctrl_check", ["check"], 58_000_000, tree_lines),
    Row("check_tree_flushes", "resctrl_check", ["check"], 68_000_000, tree_flushes),
    Row("check_slice_lines", "resctrl_check", ["check"], 85_000_000, slice_lines),
    *exported(SLOW_TREES + SLOW_WINDOWS),
    *checked(SLOW_TREES + SLOW_WINDOWS),
    *checked(SLOW_TREES[:1] + SLOW_WINDOWS[:1], "resctrl_replay", ("order",)),
    *checked(SLOW_WINDOWS, "resctrl_replay", ("report", "--windows")),
    *checked(named(caches.ROWS, "names"), "resctrl_replay", ("order",)),
    Row("cdp_read_tasks", "resctrl_cdp", [], 19_990, pair_tasks),
    Row("cdp_spread", "resctrl_cdp", ["--quiet"], USES - COMMANDS, cdp_spread),
    Row("cdp_tasks_same8", "resctrl_cdp", ["--quiet"], 16_000, pair_tasks_same8),
    Row("cdp_toggle", "resctrl_cdp", ["--quiet"], COMMANDS - 200, cdp_toggle),
    Row("l2_read_tasks", "resctrl_l2", [], 19_990, pair_tasks),
    Row("l2_tasks_same", "resctrl_l2", ["--quiet"], 16_000, pair_tasks_same),
    Row("l2_tasks_same8", "resctrl_l2", ["--quiet"], 16_000, pair_tasks_same8),
    Row("l2_scatter", "resctrl_l2", ["--quiet"], USES - COMMANDS, l2_scatter),
    Row("l2_modes", "resctrl_l2", ["--quiet"], COMMANDS - 200, l2_modes),
    Row("l2_windows", "resctrl_l2", ["--quiet"], COMMANDS - 200, l2_windows),
)
