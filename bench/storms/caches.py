"""Storms of full caches, of flushes and drops, and of scripts that are long."""
from storms.limits import MOST_BYTES, MOST_TEXT, MOST_WEIGHT, PLACES, SETS
from storms.row import Row

LARGEST = "machine sets=65536 ways=16"


def head(machine):
    """The lines before the ops."""
    return f"{machine}\ntasks 1\nphase\nthread\n"


def fill(machine):
    """A full cache of 1,048,576 places."""
    return head(machine) + f"sweep 1 0 0 {PLACES} 64\n"


def flushes(script, count):
    """Flushes of a large cache that is empty."""
    script.write(head(LARGEST) + "flush\n" * count)


def flushes_of_eight(script, count):
    """Flushes of eight caches."""
    script.write(head("machine domains=8 sets=8192 ways=16") + "flush\n" * count)


def filled_flushes(script, count):
    """Flushes of a large cache, between each two of which one set gets a line."""
    script.write(head(LARGEST) + "access 1 0 4194240\nflush\n" * count)


def drops(script, count):
    """A line of every set of a large cache, and then a flush of each of these lines, over and over."""
    flushed = "".join(f"clflush {64 * line}\n" for line in range(SETS))
    script.write(head(LARGEST) + (f"sweep 1 0 0 {SETS} 64\n" + flushed) * (count // SETS))


def drops_and_flushes(script, count):
    """A fill of one set and its drop, of the sets in turn, between each two flushes of the whole cache."""
    script.write(head(LARGEST))
    script.writelines(f"access 1 0 {64 * (at % SETS)}\nclflush {64 * (at % SETS)}\nflush\n" for at in range(count))


def locks(script, count):
    """A group that is made, locks fifteen ways of a large cache and is removed, over and over."""
    script.write(head(LARGEST + " rmids=2") + "write /schemata L3:0=1\n")
    script.write("mkdir /region\nwrite /region/mode pseudo-locksetup\nwrite /region/schemata L3:0=fffe\nrmdir /region\n" * count)


def refused_touches(script, count):
    """Touches of no region, on eight caches."""
    script.write(head("machine domains=8 sets=8192 ways=16") + "touch /none 0 1 0\n" * count)


def pairs(script, count):
    """A group that comes and goes beside a full cache."""
    script.write(fill(LARGEST + " rmids=2") + "mkdir /tenant\nrmdir /tenant\n" * count)


def reads_of_all(script, count):
    """Reads of `llc_occupancy` beside a full cache, on a machine of 256 RMIDs."""
    script.write(fill(LARGEST + " rmids=256") + "read /mon_data/mon_L3_00/llc_occupancy\n" * count)


def falling_ids(script, count):
    """A line of tasks whose ids fall: too many, which is told once the line was read."""
    script.write("machine\ntasks")
    script.writelines(f" {task}" for task in range(count, 0, -1))
    script.write("\n")


def names(script, count):
    """Groups of different names, most of which are refused."""
    script.write(head("machine"))
    script.writelines(f"mkdir /{name:x}\n" for name in range(count))


def names_alike(script, count):
    """Names of 255 bytes that differ in their last ones alone."""
    script.write(head("machine"))
    script.writelines(f"mkdir /{'n' * 245}{name:010}\n" for name in range(count))


def unknown_files(script, count):
    """Reads in groups of different names, none of which is there."""
    script.write(head("machine"))
    script.writelines(f"read /{name:x}\n" for name in range(count))


def scattered(script, count):
    """A sweep that leaves a cache line's neighbours alone and goes round all sets."""
    script.write(head(LARGEST) + f"sweep 1 0 0 {count} {64 * 40_503}\n")


def orders(script, count):
    """The longest list of an order, over sixteen threads."""
    script.write("machine sets=4096 ways=8\ntasks 1\nphase\norder")
    script.writelines(f" {number * 7 % 16}" for number in range(count))
    script.write("\n" + f"thread\nsweep 1 0 0 {count // 16} 64\n" * 16)


def cpu_lists(script, count):
    """Lists of CPUs, each of as many ranges of all CPUs as a text may hold."""
    script.write("machine cpus=64\nphase\nthread\n")
    script.write(("write /cpus_list " + ",".join(["0-63"] * (MOST_TEXT // 5)) + "\n") * count)


def newlines(script, count):
    """Lines without words."""
    script.write("\n" * count)


def step(name, count, write):
    """A row of `resctrl_sim step`."""
    return Row(name, "resctrl_sim", ["step"], count, write)


ROWS = (
    step("flushes", MOST_WEIGHT // 2, flushes),
    step("flushes_of_eight", MOST_WEIGHT // 9, flushes_of_eight),
    step("filled_flushes", MOST_WEIGHT // 3, filled_flushes),
    step("drops", MOST_WEIGHT // 3, drops),
    step("drops_and_flushes", MOST_WEIGHT // 5, drops_and_flushes),
    step("locks", (MOST_WEIGHT - 2) // 10, locks),
    step("refused_touches", MOST_WEIGHT // 2, refused_touches),
    step("pairs", (MOST_WEIGHT - PLACES) // 5, pairs),
    step("reads_of_all", (MOST_WEIGHT - PLACES) // 258, reads_of_all),
    step("falling_ids", 7_000_000, falling_ids),
    step("names", MOST_WEIGHT, names),
    step("names_alike", 240_000, names_alike),
    Row("names_json", "resctrl_sim", ["step", "--json"], 3_990_000, names),
    step("names_unknown_read", 3_990_000, unknown_files),
    step("scattered", MOST_WEIGHT, scattered),
    step("orders", MOST_WEIGHT, orders),
    step("cpu_lists", 15_000, cpu_lists),
    step("newlines", MOST_BYTES - 1, newlines),
)
