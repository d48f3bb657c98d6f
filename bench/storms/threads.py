"""Storms of `run`, whose threads share the tree and the slices."""
from storms.caches import head
from storms.limits import MOST_WEIGHT, PLACES
from storms.row import Row

THREADS = 16


def side_by_side(machine, tasks, lines, threads=THREADS):
    """A phase of so many threads with these lines each."""
    return f"{machine}\ntasks {tasks}\nphase\n" + f"thread\n{lines}" * threads


def run_one_slice(script, count):
    """Sixteen threads in one slice."""
    script.write(side_by_side("machine sets=4096 ways=16", "1", f"sweep 1 0 0 {count // THREADS} 64\n"))


def run_32_slices(script, count):
    """Sixteen threads over 32 slices, which a tag under the tree's lock meets."""
    machine = "machine domains=2 slices=16 sets=4096 ways=16 cpus=2"
    script.write(side_by_side(machine, "1", f"sweep 1 0 0 {count // THREADS} 64\n"))


def run_cmds_32(script, count):
    """Masks that are written over and over on 32 slices."""
    script.write(head("machine domains=2 slices=16 sets=64 cpus=2") + "write /schemata L3:0=3\nwrite /schemata L3:0=1\n" * (count // 2))


def run_raises(script, count):
    """Fifteen threads with accesses, and one that makes their tags stale."""
    sweeps = f"sweep 1 0 0 {count // THREADS} 64\n"
    masks = "write /schemata L3:0=3\nwrite /schemata L3:0=1\n" * (count // THREADS // 4)
    script.write(side_by_side("machine sets=4096 ways=16", "1", sweeps, THREADS - 1) + "thread\n" + masks)


def run_reads(script, count):
    """Sixteen threads that all read one file."""
    script.write(side_by_side("machine", "1", "read /schemata\n" * (count // THREADS)))


def run_phases(script, count):
    """As many phases of as many threads as a script may have."""
    script.write("machine sets=4096 ways=16\ntasks 1\n")
    script.write(("phase\n" + f"thread\nsweep 1 0 0 {count // 1_024} 64\n" * THREADS) * 64)


def run_looks(script, count):
    """Reads of `llc_occupancy` beside a full cache, on 256 RMIDs."""
    script.write(head("machine sets=65536 ways=16 rmids=256") + f"sweep 1 0 0 {PLACES} 64\n")
    script.write("read /mon_data/mon_L3_00/llc_occupancy\n" * count)


def run(name, count, write, words=("run", "--quiet")):
    return Row(name, "resctrl_sim", list(words), count, write)


ROWS = (
    run("run_one_slice", MOST_WEIGHT, run_one_slice),
    run("run_32_slices", MOST_WEIGHT, run_32_slices),
    run("run_cmds_32", MOST_WEIGHT // 33, run_cmds_32),
    run("run_raises", MOST_WEIGHT, run_raises),
    run("run_reads", MOST_WEIGHT, run_reads),
    run("run_phases", MOST_WEIGHT, run_phases),
    run("run_looks", (MOST_WEIGHT - PLACES) // 258, run_looks),
)
