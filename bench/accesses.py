#!/usr/bin/env python3
"""Times `resctrl_sim step` on 1, 2 and 4 million accesses: one sweep, the same over a cache of four slices, a line for each (some
60 MB of text at the most), short sweeps in turn over twelve groups, by one of 4,096 declared tasks and by all of them, and short
sweeps at random over full sets, of which half hit.

usage: accesses.py PROGRAM      PROGRAM is the built program, after `make demo`: crates/resctrl_sim/out/resctrl_sim

Prints a table: what was played, accesses, bytes of script, seconds of processor time in the program and in the system for it, the
highest memory in MB, page faults, and instructions where `perf stat` counts them. Run it on an idle machine.
"""
import random

from timing import table

HEADS = "tasks 1\nphase\nthread\n"
TASKS = 4096
GROUPS = 12
MIXED = 4


def write_sweep(script, accesses, slices=1):
    """One sweep over the lines of a cache of a million places."""
    script.write(f"machine sets=65536 ways=16 slices={slices}\n" + HEADS)
    script.write(f"sweep 1 0 0 {accesses} 64\n")


def write_slices(script, accesses):
    """The same over a cache of four slices."""
    write_sweep(script, accesses, 4)


def write_lines(script, accesses):
    """A line for each access, at random addresses of a small cache."""
    numbers = random.Random(1)
    script.write("machine sets=4096 ways=16\n" + HEADS)
    for _ in range(accesses // 10000):
        script.write("".join(f"access 1 0 {numbers.randrange(1000)}\n" for _ in range(10000)))


def write_turns(script, accesses, used):
    """Sweeps of 100 accesses by so many tasks in turn, one fewer than fit: the commands before them count too. All 4,096 are
    declared, and dealt out among twelve groups.
    """
    script.write(f"machine sets=4096 ways=16 classes=16 rmids=16\ntasks 1-{TASKS}\nphase\nthread\n")
    for group in range(GROUPS):
        members = ",".join(str(task) for task in range(1 + group, TASKS + 1, GROUPS))
        script.write(f"mkdir /tenant{group}\nwrite /tenant{group}/tasks {members}\n")
    for turn in range(accesses // 100 - 1):
        script.write(f"sweep {1 + turn % used} 0 {turn * 6400 % 2 ** 30} 100 64\n")


def write_mix(script, accesses):
    """Sweeps of 100 accesses by four groups at random over twice as many lines as the cache has places: its sets are soon full,
    half of the accesses hit, and a miss looks for the line before it takes the place that was used longest ago.
    """
    numbers = random.Random(2)
    script.write(f"machine sets=4096 ways=16\ntasks 1-{MIXED}\nphase\nthread\n")
    for task in range(1, MIXED + 1):
        script.write(f"mkdir /tenant{task}\nwrite /tenant{task}/tasks {task}\n")
    for _ in range(accesses // 100 - 1):
        script.write(f"sweep {numbers.randint(1, MIXED)} 0 {numbers.randrange(2 * 4096 * 16) * 64} 100 64\n")


def write_one_task(script, accesses):
    write_turns(script, accesses, 1)


def write_all_tasks(script, accesses):
    write_turns(script, accesses, TASKS)


if __name__ == "__main__":
    SIZES = (1_000_000, 2_000_000, 4_000_000)
    KINDS = (
        ("sweep", write_sweep),
        ("four slices", write_slices),
        ("lines", write_lines),
        ("one task", write_one_task),
        ("all tasks", write_all_tasks),
        ("full sets", write_mix),
    )
    table(__doc__, [(name, size, write) for name, write in KINDS for size in SIZES])
