"""Shows how many lines each group holds in a cache over time, and who has which way when."""
import argparse
import json
import os
import sys

from bikhnoun.playing import played
from explained.reader import Fault, read_script
from resctrl_sim.names import tool_name
from resctrl_sim.programs import SIMULATOR, ended, required

from . import picture, table
from .moments import moments

NOTES = """Time is counted in entries of the cache's history, as the report's journal has them. The entries of several slices are merged:
those of one slice stand in their order, and between slices those of an earlier epoch stand first. The table has a row for each
command that the cache takes notice of, one for the entry before it, and some in between. In a row each group has the lines that
it has filled and that are still there, and its mask; then each way, the highest first, has the letter of the group that holds
most of it, a capital where no other holds a line of it. A mask that no write and no access has told yet is `-`."""


def stop(why):
    """Ends with one sentence."""
    sys.exit(f"{tool_name('timeline')}: {why}")


def words_given(arguments):
    words = argparse.ArgumentParser(
        prog=tool_name("timeline"), description=__doc__, epilog=NOTES, formatter_class=argparse.RawDescriptionHelpFormatter
    )
    words.add_argument("script", metavar="SCRIPT", help="a script of resctrl_sim, see docs/FORMAT.md; - is standard input")
    words.add_argument("--program", metavar="PATH", help="resctrl_sim, if it is neither built here nor on the PATH")
    words.add_argument("--domain", type=int, default=0, metavar="D", help="the cache (default: %(default)s)")
    words.add_argument(
        "--rows", type=int, default=32, metavar="N", help="about how many rows the table has at most, beside those of commands (default: %(default)s)"
    )
    words.add_argument("--svg", metavar="FILE", help="draws a picture into this file, with gnuplot (Debian: gnuplot-nox), in place of the table")
    given = words.parse_args(arguments)
    if given.rows < 1:
        stop("--rows is one or more")
    return given


def play(program, data):
    """The report of the script, with its journal."""
    done = played([required(SIMULATOR, program), "step", "--json", "--journal"], data)
    if done.returncode == 1:
        stop(f"the program says `{done.stdout.decode('ascii').strip()}`; bikhnoun explain says more")
    if done.returncode:
        stop(ended(SIMULATOR, done.returncode))
    return json.loads(done.stdout)


def main(arguments):
    given = words_given(arguments)
    if given.script == "-":
        data = sys.stdin.buffer.read()
    else:
        with open(given.script, "rb") as file:
            data = file.read()
    report = play(given.program, data)
    script = read_script(data)
    if isinstance(script, Fault) or not 0 <= given.domain < script.machine.domains:
        stop(f"there is no domain {given.domain}")
    most = picture.POINTS if given.svg else given.rows
    seen = list(moments(script.machine, report, given.domain, most))
    if not given.svg:
        print("\n".join(table.lines(report, seen)))
    elif not seen:
        stop("nothing happens in this cache")
    else:
        draw(report, seen, script.machine, given)


def draw(report, seen, machine, given):
    try:
        picture.draw(report, seen, machine, f"{os.path.basename(given.script)}, domain {given.domain}", given.svg)
    except FileNotFoundError:
        stop("gnuplot is missing (Debian: apt-get install gnuplot-nox)")

