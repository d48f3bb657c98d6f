#!/usr/bin/env python3
"""Times exports of large scripts and checks of their journals, as they are and broken, beside the play alone.

usage: checks.py PROGRAM CHECKER

PROGRAM  the built program, after `make demo`: crates/resctrl_sim/out/resctrl_sim
CHECKER  the built checker: crates/resctrl_check/out/resctrl_check

Prints a table: what was played, what was asked, bytes of input, seconds of processor time in the program and in the system for it,
the highest memory in MB, page faults, millions of instructions where `perf` counts them, and the exit status: 0 for a play, an export
and a `yes`, 6 for a `no`. The broken journals are those that take long: the fault is the last thing that is found, or there are as
many entries of one command as a file of that size has. Run it on an idle machine.
"""
import os
import subprocess
import sys
import tempfile
from concurrent.futures import ProcessPoolExecutor

from timing import HEAD, measure_words, row

ACCESSES = 4_000_000
COMMANDS = 75_000
TICKS = 450


def sweep():
    """One sweep over a cache of 1,048,576 places."""
    return f"machine sets=65536 ways=16\ntasks 1\nphase\nthread\nsweep 1 0 0 {ACCESSES} 64\n"


def rewrites():
    """A mask is rewritten over and over on 32 slices."""
    return "machine domains=2 slices=16 sets=64\nphase\nthread\n" + "write /schemata L3:0=f\n" * COMMANDS


def ticks():
    """A group goes while it has lines, and ticks look at its RMID in 32 slices over and over."""
    head = "machine domains=2 slices=16 sets=64 rmids=256\ntasks 1\nphase\nthread\n"
    made = "".join(f"mkdir /g{at}\nwrite /g{at}/tasks 1\naccess 1 0 {64 * at}\nrmdir /g{at}\n" for at in range(7))
    return head + made + "tick\n" * TICKS


def lines_of(journal):
    return journal.decode("ascii").splitlines()


def text_of(lines):
    return ("\n".join(lines) + "\n").encode("ascii")


def last_entry_broken(journal):
    """The last access is of another line of its set."""
    lines = lines_of(journal)
    at = max(number for number, line in enumerate(lines) if line.startswith("access "))
    words = lines[at].split()
    words[7] = str(int(words[7]) + 65_536 * 7_000)
    return text_of(lines[:at] + [" ".join(words)] + lines[at + 1:])


def last_look_broken(journal):
    """The last look counts a line more."""
    lines = lines_of(journal)
    at = max(number for number, line in enumerate(lines) if line.startswith("look "))
    words = lines[at].split()
    words[5] = str(int(words[5]) + 1)
    return text_of(lines[:at] + [" ".join(words)] + lines[at + 1:])


def entries_of_one(journal):
    """Every look and every raise is of the first command that makes one."""
    lines, first = lines_of(journal), {}
    for at, line in enumerate(lines):
        words = line.split(" ")
        if words[0] in ("look", "raise"):
            first.setdefault(words[0], words[1:4])
            lines[at] = " ".join(words[:1] + first[words[0]] + words[4:])
    return text_of(lines)


def rewrite(broken, journal, other):
    """Breaks a file of journals, and writes what comes of it to another."""
    with open(journal, "rb") as given, open(other, "wb") as file:
        file.write(broken(given.read()))


ROWS = (
    ("sweep", sweep, (last_entry_broken,)),
    ("rewrites", rewrites, (entries_of_one,)),
    ("ticks", ticks, (last_look_broken, entries_of_one)),
)


def main(words):
    if len(words) != 3:
        sys.exit(__doc__)
    program, checker = words[1:]
    print(HEAD)
    with tempfile.TemporaryDirectory() as folder:
        script, journal, other = (os.path.join(folder, name) for name in ("script", "journal", "other"))

        def told(name, path, command, statuses):
            it = measure_words(command, path)
            print(row(name, 1, os.path.getsize(path), it), flush=True)
            if it.status not in statuses:
                sys.exit(f"{command[0]} ended with {it.status}")

        for name, write, breaks in ROWS:
            with open(script, "w") as file:
                file.write(write())
            told(f"{name} step", script, [program, "step"], (0,))
            told(f"{name} export", script, [checker, "export", "step"], (0,))
            with open(script) as given, open(journal, "w") as exported:
                subprocess.run([checker, "export", "step"], stdin=given, stdout=exported, check=True)
            told(f"{name} check", journal, [checker, "check"], (0,))
            for broken in breaks:
                # In a process of its own, whose memory is none of what is measured.
                with ProcessPoolExecutor(1) as pool:
                    pool.submit(rewrite, broken, journal, other).result()
                told(f"{name} {broken.__name__}"[:24], other, [checker, "check"], (0, 6))


if __name__ == "__main__":
    main(sys.argv)
