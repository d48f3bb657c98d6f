"""What the benchmarks share: a script is written, played, and told as a row of a table."""
import multiprocessing
import os
import re
import subprocess
import sys
import tempfile
import time
from collections import namedtuple

# The seconds of processor time in the program and in the system for it, those by the clock, the highest memory in MB, the page faults,
# the instructions in millions where the machine counts them (else None), and the exit status.
Measured = namedtuple("Measured", "user system clock memory faults instructions status")

HEAD = "script              count     bytes   user  system   MB   faults  M instructions  status"


def count_instructions(command, path):
    """Millions of instructions of a command on a file, by `perf stat`, and None where that is not there or does not count them."""
    words = ["perf", "stat", "-x", ",", "-e", "instructions:u", *command]
    try:
        with open(path) as script:
            told = subprocess.run(words, stdin=script, stdout=subprocess.DEVNULL, stderr=subprocess.PIPE, text=True).stderr
    except FileNotFoundError:
        return None
    found = re.search(r"^(\d+),", told, re.MULTILINE)
    return int(found[1]) / 1e6 if found else None


def write_apart(path, write):
    """Has a process of its own write a file by what writes to it. The system counts the memory that this process once had as that of each
    program which it starts, so nothing large may ever be made here.
    """

    def written():
        with open(path, "w") as file:
            write(file)

    apart = multiprocessing.get_context("fork").Process(target=written)
    apart.start()
    apart.join()
    if apart.exitcode:
        sys.exit(f"{path}: it is not written")


def measure(program, path, flags=()):
    """One play of a script with these flags, and a second one that counts instructions."""
    return measure_words([program, "step", *flags], path)


def measure_words(command, path):
    """One run of a command on a file, and a second one that counts instructions."""
    with open(path) as script:
        began = time.monotonic()
        child = subprocess.Popen(command, stdin=script, stdout=subprocess.DEVNULL)
        _, status, used = os.wait4(child.pid, 0)
        clock = time.monotonic() - began
    return Measured(
        used.ru_utime,
        used.ru_stime,
        clock,
        used.ru_maxrss / 1024,
        used.ru_minflt,
        count_instructions(command, path),
        os.waitstatus_to_exitcode(status),
    )


def row(name, count, size, it):
    """A row of the table."""
    instructions = "-" if it.instructions is None else f"{it.instructions:.0f}"
    return (
        f"{name:16}  {count:8}  {size:8}  {it.user:5.2f}  {it.system:6.2f}  {it.memory:4.0f}  {it.faults:7}"
        f"  {instructions:>14}  {it.status:6}"
    )


def table(usage, rows, statuses=(0,)):
    """Plays each script and prints its row. A row is a name, how many things are played, what writes so many to a file, and the flags
    of the play, if any. A play that ends with another status than these ends the benchmark.
    """
    if len(sys.argv) != 2:
        sys.exit(usage)
    print(HEAD)
    with tempfile.TemporaryDirectory() as folder:
        path = os.path.join(folder, "script")
        for name, count, write, *flags in rows:
            write_apart(path, lambda script: write(script, count))
            it = measure(sys.argv[1], path, flags)
            print(row(name, count, os.path.getsize(path), it), flush=True)
            if it.status not in statuses:
                sys.exit(f"{sys.argv[1]} ended with {it.status}")
