#!/usr/bin/env python3
"""Times `resctrl_sim step` on 75,000, 150,000 and 300,000 commands over up to twelve groups.

usage: commands.py PROGRAM      PROGRAM is the built program, after `make demo`: crates/resctrl_sim/out/resctrl_sim

The commands make and remove groups, write and read their `schemata` and `mode`, and read `size`, `bit_usage` and
`last_cmd_status`; some are refused, as two groups want the same ways. Prints a table: commands, bytes of script, seconds of
processor time in the program and in the system for it, the highest memory in MB, page faults, and instructions where `perf stat`
counts them. Run it on an idle machine.
"""
import random

from timing import table

GROUPS = range(12)
DEFAULT_WAYS = 4


def made(path, own):
    """A group comes, and takes the one way that is its own in each cache."""
    return f"mkdir {path}\nwrite {path}/schemata L3:0={own:x};1={own:x}\n"


def changed(numbers, path, own):
    """Two commands on a group that is there, and whether it still is."""
    kind = numbers.randrange(6)
    if kind == 0:
        return f"rmdir {path}\nread /info/last_cmd_status\n", False
    if kind == 1:
        return f"write {path}/mode exclusive\nread {path}/mode\n", True
    if kind == 2:
        return f"write {path}/mode shareable\nread /info/L3/bit_usage\n", True
    if kind == 3:
        return f"write {path}/schemata L3:0={3 << numbers.randrange(15):x}\nread /info/last_cmd_status\n", True
    if kind == 4:
        return f"write {path}/schemata L3:1={own:x};0={own:x}\nread {path}/size\n", True
    return f"read {path}/schemata\nread {path}/size\n", True


def write_commands(script, commands):
    numbers = random.Random(1)
    alive = set()
    script.write("machine domains=2 ways=16 classes=16 rmids=16\nphase\nthread\nwrite /schemata L3:0=f;1=f\nread /mode\n")
    for _ in range(commands // 2 - 1):
        group = numbers.choice(GROUPS)
        path, own = f"/tenant{group}", 1 << DEFAULT_WAYS + group
        if group not in alive:
            alive.add(group)
            script.write(made(path, own))
            continue
        lines, stays = changed(numbers, path, own)
        script.write(lines)
        if not stays:
            alive.remove(group)


if __name__ == "__main__":
    table(__doc__, [("commands", size, write_commands) for size in (75_000, 150_000, 300_000)])
