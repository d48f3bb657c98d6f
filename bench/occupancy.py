#!/usr/bin/env python3
"""Times `resctrl_sim step` on what counts lines: reads of `llc_occupancy`, groups that come and go, and flushes, on a cache of
1,048,576 places that is full.

usage: occupancy.py PROGRAM      PROGRAM is the built program, after `make demo`: crates/resctrl_sim/out/resctrl_sim

Prints a table: what was played, commands, bytes of script, seconds of processor time in the program and in the system for it, the
highest memory in MB, page faults, and instructions where `perf stat` counts them. The first row fills the cache alone, as the others do first. The machine has eight RMIDs, since a read and a
removal weigh as much as all RMIDs of the machine. Run it on an idle machine.
"""
from timing import table

PLACES = 65_536 * 16


def write_fill(script, _):
    """A full cache."""
    script.write("machine sets=65536 ways=16 rmids=8 classes=8\ntasks 1\nphase\nthread\n")
    script.write(f"sweep 1 0 0 {PLACES} 64\n")


def write_reads(script, reads):
    """How many bytes the default group has, again and again."""
    write_fill(script, 0)
    script.write("read /mon_data/mon_L3_00/llc_occupancy\n" * reads)


def write_pairs(script, commands):
    """A group comes and goes."""
    write_fill(script, 0)
    script.write("mkdir /tenant\nrmdir /tenant\n" * (commands // 2))


def write_flushes(script, flushes):
    """The first flush empties the cache, and the others find it empty."""
    write_fill(script, 0)
    script.write("flush\n" * flushes)


if __name__ == "__main__":
    KINDS = (("fill", 1, write_fill), ("reads", 200_000, write_reads), ("pairs", 100_000, write_pairs), ("flushes", 1_000_000, write_flushes))
    table(__doc__, [(name, count, write) for name, count, write in KINDS])
