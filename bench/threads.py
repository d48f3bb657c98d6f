#!/usr/bin/env python3
"""Times `resctrl_sim run` beside `resctrl_sim step` on 1,000,000 accesses by each of 1, 2 and 4 threads: each thread in a cache of
its own, each in a slice of its own of one cache, and all in one slice.

usage: threads.py PROGRAM      PROGRAM is the built program, after `make demo`: crates/resctrl_sim/out/resctrl_sim

Prints a table: what was played, threads, how, seconds that went by, seconds of processor time, seconds of processor time for each
million accesses, and the highest memory in MB. Seconds that go by are those of the whole program: it reads the script, plays it by
one worker for each thread, and makes the report by one. Run it on an idle machine with as many processors as threads.
"""
import os
import subprocess
import sys
import tempfile
import time

ACCESSES = 1_000_000
SETS = 16_384


def caches(threads):
    """A cache for each thread: CPU n is of cache n."""
    return f"domains={threads} cpus={threads} sets={SETS} ways=16", lambda thread: f"sweep 1 {thread} 0 {ACCESSES} 64\n"


def slices(threads):
    """A slice for each thread: the sets of slice n are those whose numbers leave n."""
    stride = 64 * threads
    return f"slices={threads} cpus={threads} sets={SETS} ways=16", lambda thread: f"sweep 1 0 {64 * thread} {ACCESSES} {stride}\n"


def one_slice(threads):
    """All in one slice."""
    return f"cpus={threads} sets={SETS} ways=16", lambda thread: f"sweep 1 0 0 {ACCESSES} 64\n"


def write(path, threads, kind):
    """A phase of so many threads."""
    machine, sweep = kind(threads)
    with open(path, "w") as script:
        script.write(f"machine {machine}\ntasks 1\nphase\n")
        for thread in range(threads):
            script.write("thread\n" + sweep(thread))


def measure(program, how, path):
    """Seconds that go by, seconds of processor time, and MB, of one play."""
    began = time.monotonic()
    with open(path) as script:
        child = subprocess.Popen([program, how, "--quiet"], stdin=script, stdout=subprocess.DEVNULL)
        _, status, used = os.wait4(child.pid, 0)
    if status != 0:
        sys.exit(f"{how}: status {os.waitstatus_to_exitcode(status)}")
    return time.monotonic() - began, used.ru_utime + used.ru_stime, used.ru_maxrss / 1024


def main():
    if len(sys.argv) != 2:
        sys.exit(__doc__)
    print("script       threads  how   seconds  processor  a million   MB")
    with tempfile.TemporaryDirectory() as folder:
        path = os.path.join(folder, "script")
        for kind in (caches, slices, one_slice):
            for threads in (1, 2, 4):
                write(path, threads, kind)
                for how in ("step", "run"):
                    seconds, processor, memory = measure(sys.argv[1], how, path)
                    print(f"{kind.__name__:12} {threads:7}  {how:4}  {seconds:7.2f}  {processor:9.2f}  {processor / threads:9.2f}  {memory:4.0f}")


if __name__ == "__main__":
    main()
