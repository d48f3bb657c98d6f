#!/usr/bin/env python3
"""Times the programs of two masks on as many uses as a script may have.

usage: pairs.py CDP L2

CDP  the built program, after `make demo`: crates/resctrl_cdp/out/resctrl_cdp
L2   the built program: crates/resctrl_l2/out/resctrl_l2

Prints a table: what was played, how many uses, bytes of script, seconds of processor time in the program and in the system for it, the
highest memory in MB, page faults, millions of instructions where `perf` counts them, and the exit status. Run it on an idle machine.
"""
import os
import sys
import tempfile

from timing import HEAD, measure_words, row, write_apart

USES = 2_000_000


def trace(script):
    """A loop of a thousand lines of code beside a walk over data, as lackey writes them; one of four uses is of data."""
    script.write("machine sets=1024 ways=16 classes=4\ntasks 1\nwrite /schemata L3CODE:0=f\nwrite /schemata L3DATA:0=fff0\n")
    script.write("write /mode exclusive\nflush\ntrace 1 0\n")
    for at in range(USES // 4):
        for step in range(3):
            script.write(f"I  {0x400000 + 64 * ((3 * at + step) % 1000):08x},4\n")
        script.write(f" L {0x10000000 + 64 * (at % 20_000):08x},8\n")
    script.write("end\n")


def accesses(script):
    """Two tenants that go over their lines in turn, on an L2 of 1,024 places and an L3 of 16,384."""
    script.write("machine sets=1024 ways=16 l2_domains=2 l2_sets=128 l2_ways=8\ntasks 1 2\nmkdir /a\n")
    script.write("write /schemata L2:0=f0;1=f0\nwrite /schemata L3:0=ff00\nwrite /a/schemata L2:0=f;1=f\nwrite /a/schemata L3:0=ff\n")
    script.write("write /a/tasks 1\nwrite /a/mode exclusive\nflush\n")
    for at in range(USES // 20):
        script.write(f"sweep 1 0 {64 * (at % 4_000)} 10 64\nsweep 2 1 {2**24 + 64 * (at % 40_000)} 10 64\n")


FAR = 64 * 2_000


def quiet_trace(script):
    """Uses of lines far from one another after a flush, where no side of a group has ways for itself."""
    script.write("machine sets=1024 ways=16 classes=4\ntasks 1\nflush\ntrace 1 0\n")
    script.writelines(f" L {FAR * at:012x},8\n" for at in range(USES // 2))
    script.write("end\n")


def quiet(script):
    """Accesses to lines far from one another after a flush, where no group is ever exclusive."""
    script.write(f"machine sets=1024 ways=16\ntasks 1\nflush\nsweep 1 0 0 {USES - 20_000} {FAR}\n")


def main(words):
    if len(words) != 3:
        sys.exit(__doc__)
    print(HEAD)
    with tempfile.TemporaryDirectory() as folder:
        cdp, l2 = words[1:]
        for program, write in (cdp, trace), (l2, accesses), (cdp, quiet_trace), (l2, quiet):
            path = os.path.join(folder, write.__name__)
            write_apart(path, write)
            it = measure_words([program, "--quiet"], path)
            print(row(write.__name__, USES, os.path.getsize(path), it), flush=True)
            if it.status:
                sys.exit(f"{program} ended with {it.status}")


if __name__ == "__main__":
    main(sys.argv)
