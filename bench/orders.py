#!/usr/bin/env python3
"""Times how an order is found for the journals of races, beside the check of the same journals.

usage: orders.py CHECKER REPLAYER

CHECKER   the built checker: crates/resctrl_check/out/resctrl_check
REPLAYER  the built program that finds the order: crates/resctrl_replay/out/resctrl_replay

Each script has four threads that race over the slices of one cache: accesses alone, or with a command after every hundred accesses.
The journals are those of one run with real threads, so the order differs from time to time.
"""
import os
import random
import subprocess
import sys
import tempfile

from timing import HEAD, measure_words, row

THREADS = 4
LINE_BYTES = 64


def race(accesses, commands_after):
    """The lines of a script: so many accesses in all, and a command of each thread after so many of its accesses, or none."""
    numbers = random.Random(accesses)
    yield f"machine sets=1024 ways=16 slices=4 cpus={THREADS}"
    yield f"tasks 1-{THREADS}"
    yield "phase"
    for thread in range(THREADS):
        yield "thread"
        for number in range(accesses // THREADS):
            yield f"access {thread + 1} {thread} {numbers.randrange(100_000) * LINE_BYTES}"
            if commands_after and number % commands_after == commands_after - 1:
                yield f"write /schemata L3:0={numbers.choice(('ffff', 'ff', 'ff00', 'f0'))}"


ROWS = (("accesses", 100_000, 0), ("accesses", 1_000_000, 0), ("with commands", 1_000_000, 100))


def main(words):
    if len(words) != 3:
        sys.exit(__doc__)
    checker, replayer = words[1:]
    print(HEAD)
    with tempfile.TemporaryDirectory() as folder:
        script, journals = (os.path.join(folder, name) for name in ("script", "journals"))
        for name, accesses, commands_after in ROWS:
            with open(script, "w") as file:
                file.writelines(line + "\n" for line in race(accesses, commands_after))
            with open(script) as given, open(journals, "w") as exported:
                subprocess.run([checker, "export", "run"], stdin=given, stdout=exported, check=True)
            for what, command in (("check", [checker, "check"]), ("order", [replayer, "order"])):
                it = measure_words(command, journals)
                print(row(f"{what}, {name}"[:20], accesses, os.path.getsize(journals), it), flush=True)
                if it.status:
                    sys.exit(f"{command[0]} ended with {it.status}")


if __name__ == "__main__":
    main(sys.argv)
