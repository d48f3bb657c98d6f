"""Tries how many ways of the cache a group needs: plays a script once for each number of ways, side by side on all processors that it
may use or on a cluster, and prints the misses of every group by the ways of this one."""
import argparse
import os
import sys

from bikhnoun.players import players
from bikhnoun.progress import Progress
from curves.picture import draw
from resctrl_sim.names import old_word, tool_name
from resctrl_sim.programs import SIMULATOR, required

from .rows import COLUMNS, curves_of, rows_of
from .scripts import is_mask_line, machine_number, play, sweep_of

NOTES = """The script has a line, `write GROUP/schemata TEXT`, that gives the group its ways. The first of these gets each mask in turn, in
every domain, and the others are left out. The table is written tab after tab, with a row for each mask and group. Where the machine
refuses a mask, as one that overlaps an exclusive group's, the row says so. The column `overlaps` names the groups that have some of
the mask's ways too when the script has ended: of these the group does not have its misses alone. To see this, a phase of reads is
put after the script; where it has no room for one, the column has a question mark. Reads anywhere else would change the order of the
threads' steps. An overlap with a group that was removed before the end is not told.

The workers of a cluster get scripts and answer reports; they need the program and Dask, and nothing of this repository."""


def rows_by_ways(program, sweep, masks, scheduler):
    """The rows of all masks, each played by a process of its own."""
    rows, progress = [], Progress("playing")
    with players(scheduler, play) as (pool, shared):
        before, after = shared(sweep.before), shared(sweep.after)
        plays = [pool.submit(play, program, before, sweep.write(mask), after, sweep.reads) for _, mask in masks]
        for count, ((ways, mask), played) in enumerate(zip(masks, plays), 1):
            try:
                rows += rows_of(played.result(), sweep, ways, mask)
            except FileNotFoundError:
                sys.exit(f"{tool_name('ways')}: there is no program {program} where the scripts are played")
            progress.show(count / len(masks), f"{count} of {len(masks)} masks")
    progress.end()
    return rows


def words_given(arguments):
    words = argparse.ArgumentParser(
        prog=tool_name("ways"), description=__doc__, epilog=NOTES, formatter_class=argparse.RawDescriptionHelpFormatter
    )
    words.add_argument("script", metavar="SCRIPT", help="a script of resctrl_sim, see docs/FORMAT.md; - is standard input")
    words.add_argument("group", metavar="GROUP", help="the path of the control group, as /web, and / for the default group")
    words.add_argument("--program", metavar="PATH", help="resctrl_sim, if it is neither built here nor on the PATH")
    words.add_argument("--lowest", type=int, default=0, metavar="BIT", help="the lowest way that the group gets (default: %(default)s)")
    words.add_argument("--curve", metavar="FILE.svg", help="draws the misses by ways, with gnuplot (Debian: gnuplot-nox)")
    words.add_argument(
        "--scheduler", metavar="ADDRESS", help="of a Dask scheduler, whose workers play, each with the program at the same path (Debian: python3-distributed)"
    )
    return words.parse_args(with_program(list(arguments)))


def with_program(arguments):
    """The words of an earlier version had the program first."""
    if old_word(sys.argv[0]) == "ways" and len(arguments) > 2 and not any(word.startswith("-") for word in arguments[:3]):
        return ["--program", *arguments]
    return arguments


def lines_of(name):
    """The lines of the script."""
    if name == "-":
        return sys.stdin.read().splitlines()
    with open(name, encoding="ascii") as script:
        return script.read().splitlines()


def main(arguments):
    given = words_given(arguments)
    lines = lines_of(given.script)
    if not any(is_mask_line(line, given.group) for line in lines):
        sys.exit(f"{tool_name('ways')}: {given.script} has no line that writes the schemata of {given.group}")
    most = machine_number(lines, "ways", 8) - given.lowest
    masks = [(ways, (2 ** ways - 1) << given.lowest) for ways in range(1, most + 1)]
    program = os.path.abspath(required(SIMULATOR, given.program))
    rows = rows_by_ways(program, sweep_of(lines, given.group), masks, given.scheduler)
    print("\t".join(COLUMNS))
    for row in rows:
        print(row.text())
    if given.curve:
        draw(curves_of(rows), given.group, "its mask overlaps another group's", given.curve)
    return 0
