#!/usr/bin/env python3
"""Times additions to a shared journal and looks at it, by one thread and by four that share a lock.

usage: journals.py TESTS      TESTS is the test program of the crate, after `rt test` in crates/library_tests:
                              crates/library_tests/out/library_tests_tests

Four workers add 100,000 entries each, once without looks and once with four looks after each entry, and hand their passes to
one another now and then. Prints nanoseconds of the clock for each addition and each look, the lock and what else a turn costs
included: the best of seven runs. Run it on an idle machine.
"""
import subprocess
import sys
import time

ENTRIES = 400_000
LOOKS = 4 * ENTRIES
RUNS = 7


def seconds(program, test):
    """The least seconds that a run of a test takes."""
    best = float("inf")
    for _ in range(RUNS):
        start = time.monotonic()
        subprocess.run([program, f"run_tests::journals::{test}"], check=True, stdout=subprocess.DEVNULL)
        best = min(best, time.monotonic() - start)
    return best


if __name__ == "__main__":
    if len(sys.argv) != 2:
        sys.exit(__doc__)
    print("threads  add  look   (nanoseconds each)")
    for threads, adds, looks in (
        (1, "one_thread_adds", "one_thread_adds_and_looks"),
        (4, "four_threads_add_side_by_side", "four_threads_add_and_look"),
    ):
        alone = seconds(sys.argv[1], adds)
        both = seconds(sys.argv[1], looks)
        print(f"{threads:7}  {alone / ENTRIES * 1e9:3.0f}  {(both - alone) / LOOKS * 1e9:4.0f}")
