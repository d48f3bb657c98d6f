#!/usr/bin/env python3
"""Times everyday loads of all programs, one row each, and compares the report of `run` with that of `step`.

usage: everyday.py FOLDER [--part N] [--count] [NAME ..]

FOLDER   has the built programs, after `make build`: crates, with crates/resctrl_sim/out/resctrl_sim and so on
--part   plays one Nth of each
--count  counts instructions with Valgrind instead: of all, and of each thing by the difference of all and a half
NAME     rows to play; all where there is none

Prints a table: what was played, how many things, bytes of input, seconds of processor time in the program and in the system for it, the
highest memory in MB, page faults, millions of instructions where `perf` counts them, and the exit status. With `--count` each row tells
millions of instructions and instructions a thing. Run it on an idle machine.
"""
import argparse
import os
import re
import subprocess
import sys
import tempfile
from collections import namedtuple

import accesses
import commands
import pairs
from timing import HEAD, measure_words, row, write_apart

THREADS = 4
TASKS = 64
LINE_BYTES = 64

# A row: the program and its words, how many things the whole has, what writes the input with so many, and the program and the words that
# make the input from what is written, if they do. A word `{count}` is the number of things.
Load = namedtuple("Load", "program words count write made_by", defaults=(None, None))


def write_tasks(script, count):
    """A line for each access, by tasks and CPUs at random, in two groups and the default group."""
    draw = commands.random.Random(3)
    script.write(f"machine sets=4096 ways=16 cpus=8\ntasks 1-{TASKS}\nphase\nthread\nmkdir /a\nmkdir /b\n")
    for task in range(1, TASKS + 1, 2):
        script.write(f"write /{'ab'[task // 2 % 2]}/tasks {task}\n")
    script.writelines(
        f"access {draw.randint(1, TASKS)} {draw.randrange(8)} {draw.randrange(100_000) * LINE_BYTES}\n"
        for _ in range(count - TASKS)
    )


def write_threads(script, count):
    """Threads in one phase, each with a sweep over a slice of its own, so that their order changes no report."""
    stride = LINE_BYTES * THREADS
    script.write(f"machine slices={THREADS} cpus={THREADS} sets=16384 ways=16\ntasks 1\nphase\n")
    for thread in range(THREADS):
        script.write(f"thread\nsweep 1 0 {LINE_BYTES * thread} {count // THREADS} {stride}\n")


def write_trace(script, count):
    """A trace as lackey writes it: a loop of a thousand lines of code beside a walk over data."""
    for at in range(count // 4):
        for step in range(3):
            script.write(f"I  {0x400000 + LINE_BYTES * ((3 * at + step) % 1000):08x},4\n")
        script.write(f" L {0x10000000 + LINE_BYTES * (at % 20_000):08x},8\n")


def with_uses(write):
    """What writes so many uses by a function of bench/pairs.py, which takes them from its module."""

    def written(script, count):
        pairs.USES = count
        write(script)

    return written


LOADS = {
    "gen": Load("resctrl_sim", ("gen", "{count}", "--quiet"), 200_000),
    "json": Load("resctrl_sim", ("gen", "{count}", "--journal", "--json"), 200_000),
    "sweep": Load("resctrl_sim", ("step",), 4_000_000, accesses.write_sweep),
    "lines": Load("resctrl_sim", ("step",), 4_000_000, accesses.write_lines),
    "tasks": Load("resctrl_sim", ("step",), 4_000_000, write_tasks),
    "full_sets": Load("resctrl_sim", ("step",), 4_000_000, accesses.write_mix),
    "commands": Load("resctrl_sim", ("step",), 300_000, commands.write_commands),
    "threads_step": Load("resctrl_sim", ("step",), 4_000_000, write_threads),
    "threads_run": Load("resctrl_sim", ("run",), 4_000_000, write_threads),
    "export": Load("resctrl_check", ("export", "step"), 4_000_000, accesses.write_sweep),
    "check": Load("resctrl_check", ("check",), 4_000_000, accesses.write_sweep, ("resctrl_check", "export", "step")),
    "cdp": Load("resctrl_cdp", ("--quiet",), 2_000_000, with_uses(pairs.trace)),
    "levels": Load("resctrl_l2", ("--quiet",), 2_000_000, with_uses(pairs.accesses)),
    "curve": Load("resctrl_plan", ("curve", "1024", "16"), 4_000_000, write_trace),
}

# Two rows whose reports are the same bytes.
SAME = ("threads_step", "threads_run")


def built(folder, program):
    """Where a program lies: in the crates' own folders, or in the folder itself."""
    inside = os.path.join(folder, program, "out", program)
    return inside if os.path.isfile(inside) else os.path.join(folder, program)


def write_input(load, folder, count, path):
    """Writes the input of a load with so many things."""
    write_apart(path, lambda script: load.write and load.write(script, count))
    if load.made_by:
        program, *words = load.made_by
        given = path + ".given"
        os.replace(path, given)
        with open(given) as script, open(path, "w") as made:
            subprocess.run([built(folder, program), *words], stdin=script, stdout=made, check=True)
        os.remove(given)


def command_of(load, folder, count):
    """The command that plays so many things."""
    return [built(folder, load.program), *(word.format(count=count) for word in load.words)]


def instructions(command, path):
    """Instructions of a command on a file, by callgrind."""
    words = ["valgrind", "--tool=callgrind", "--callgrind-out-file=/dev/null", *command]
    with open(path) as script:
        told = subprocess.run(words, stdin=script, stdout=subprocess.DEVNULL, stderr=subprocess.PIPE, text=True, check=True).stderr
    return int(re.search(r"Collected : (\d+)", told)[1])


def count_row(name, load, folder, count, path):
    """A row of instructions: of so many things, and of each by the difference from half as many."""
    found = []
    for things in (count, count // 2):
        write_input(load, folder, things, path)
        found.append(instructions(command_of(load, folder, things), path))
    print(f"{name:16}  {count:8}  {found[0] / 1e6:10.1f}  {(found[0] - found[1]) / (count - count // 2):10.1f}", flush=True)


def time_row(name, load, folder, count, path):
    """A row of times."""
    write_input(load, folder, count, path)
    it = measure_words(command_of(load, folder, count), path)
    print(row(name, count, os.path.getsize(path), it), flush=True)
    if it.status:
        sys.exit(f"{name} ended with {it.status}")


def compare(folder, part, path):
    """The reports of two loads, which have to be the same bytes."""
    told = []
    for name in SAME:
        load = LOADS[name]
        write_input(load, folder, load.count // part, path)
        with open(path) as script:
            told.append(subprocess.run(command_of(load, folder, load.count // part), stdin=script, stdout=subprocess.PIPE, check=True).stdout)
    if told[0] != told[1]:
        sys.exit(f"the reports of {' and '.join(SAME)} differ")
    print(f"{' and '.join(SAME)} report the same {len(told[0])} bytes")


def main():
    words = argparse.ArgumentParser(usage=__doc__)
    words.add_argument("folder")
    words.add_argument("--part", type=int, default=1)
    words.add_argument("--count", action="store_true")
    words.add_argument("names", nargs="*", metavar="NAME")
    given = words.parse_intermixed_args()
    print("what                 count  M instructions    a thing" if given.count else HEAD)
    with tempfile.TemporaryDirectory() as folder:
        path = os.path.join(folder, "input")
        for name in given.names or LOADS:
            load = LOADS[name]
            (count_row if given.count else time_row)(name, load, given.folder, load.count // given.part, path)
        if not given.count and set(SAME) <= set(given.names or LOADS):
            compare(given.folder, given.part, path)


if __name__ == "__main__":
    main()
