#!/usr/bin/env python3
"""Plays scripts that were written to take long: each within the limits of its program, or just past them.

usage: hostile.py [--part N] [--programs DIR] --all | --list | NAME ..
       hostile.py [--part N] [--programs DIR] --search WORD

--all       plays every storm; the files of bench/storms/ have them
--list      prints their names, with the program and the words that play each
--search    plays every command in every state whose name contains WORD (STATE: COMMAND; `` are all), and prints what the whole would take
--part N    plays each with one N-th of what it repeats (a search: 100, unless it is given)
--programs  the folder in which the built programs stand as NAME/out/NAME, after `make build`: crates/ unless it is given

Prints a table: the storm, how often something is repeated, bytes of input, seconds of processor time in the program and in the system
for it, the highest memory in MB, page faults, millions of instructions where `perf` counts them, the exit status, and what bounds the
play: `3 s, 1 GB`, by the clock of an idle machine. A play that is past these is played once more for the length of its report: where
that has more than 200 MB it is told as the bound, and `OVER` marks the others.
Run it on an idle machine; a storm of the checker makes an input of a gigabyte.
"""
import argparse
import os
import subprocess
import sys
import tempfile

from storms import caches, programs, search, threads, trees, windows
from storms.row import SMALL
from timing import HEAD, measure_words, row, write_apart

ROWS = [*caches.ROWS, *trees.ROWS, *windows.ROWS, *threads.ROWS, *programs.ROWS]
# A script is played, told to be too large once it was read, or no run.
ENDS = (0, 1, 6)
# The bounds of a play, in seconds by the clock and MB, and the bytes of a report above which it is bounded by its report alone.
MOST_SECONDS, MOST_MEMORY, MOST_REPORT = 3, 1024, 200_000_000
CRATES = os.path.join(os.path.dirname(os.path.abspath(__file__)), "..", "crates")


def report_length(command, path):
    """The bytes that a command on a file writes."""
    with open(path) as script, subprocess.Popen(command, stdin=script, stdout=subprocess.PIPE) as child:
        return sum(len(piece) for piece in iter(lambda: child.stdout.read(2**20), b""))


def bound_of(storm, it, command, path):
    """What bounds a play that was measured, and whether it is past that."""
    if storm.bound != SMALL or (it.clock <= MOST_SECONDS and it.memory <= MOST_MEMORY):
        return storm.bound
    length = report_length(command, path)
    return f"{length / 1e6:.0f} MB of report" if length > MOST_REPORT else f"{SMALL} OVER: {it.clock:.1f} s"


def play(storm, part, built, folder):
    """Writes the input of a storm, plays it, and prints its row."""
    path, count = os.path.join(folder, "input"), max(storm.count // part, 1)
    write_apart(path, lambda script: storm.write(script, count))
    if storm.export:
        with open(path) as script, open(path + ".journals", "w") as journals:
            subprocess.run([built("resctrl_check"), *storm.export], stdin=script, stdout=journals, check=True)
        os.replace(path + ".journals", path)
    command = [built(storm.program), *storm.words]
    it = measure_words(command, path)
    print(f"{row(storm.name, count, os.path.getsize(path), it)}  {bound_of(storm, it, command, path)}", flush=True)
    return it.status in ENDS


def look(word, part, built, folder):
    """Prints what every command in every state whose name has this word is expected to take."""
    print("seconds     MB  MB of report    count  status  storm")
    for found in search.searched(built("resctrl_sim"), folder, part, word):
        expected = f"{found.seconds:7.2f}  {found.memory:5.0f}  {found.report:12.0f}"
        print(f"{expected}  {found.count:7}  {found.status:6}  {found.name}", flush=True)


def main():
    parser = argparse.ArgumentParser(usage=__doc__)
    parser.add_argument("names", nargs="*")
    parser.add_argument("--all", action="store_true")
    parser.add_argument("--list", action="store_true")
    parser.add_argument("--search")
    parser.add_argument("--part", type=int)
    parser.add_argument("--programs", default=CRATES)
    asked = parser.parse_args()
    unknown = set(asked.names) - {storm.name for storm in ROWS}
    if unknown or not (asked.names or asked.all or asked.list or asked.search is not None):
        sys.exit(f"no storm: {', '.join(sorted(unknown))}" if unknown else __doc__)
    if asked.list:
        for storm in ROWS:
            print(f"{storm.name:28} {storm.program} {' '.join(storm.words)}")
        return

    def built(name):
        return os.path.join(asked.programs, name, "out", name)

    with tempfile.TemporaryDirectory() as folder:
        if asked.search is not None:
            return look(asked.search, asked.part or 100, built, folder)
        print(HEAD + "  bound")
        ended = [play(storm, asked.part or 1, built, folder) for storm in ROWS if asked.all or storm.name in asked.names]
    if not all(ended):
        sys.exit("a play ended with another status than 0, 1 and 6")


if __name__ == "__main__":
    main()
