"""Translates a script of code and data masks, or of two levels of caches, into plain scripts, for which there are journals, a checker, JSON,
windows and the occupancy of each group."""
import argparse
import sys

from bikhnoun.calling import bytes_of, name_of
from bikhnoun.progress import shown
from bikhnoun.telling import say
from explained.kinds import CDP, LEVELS
from resctrl_sim.names import tool_name

from .levels import l2_script, l3_script, steps_of
from .reading import read_recorded
from .twins import Translation

FORMS = {
    "cdp": (CDP, "the plain script of a script of resctrl_cdp"),
    "l2": (LEVELS, "that of the L2 caches of a script of resctrl_l2"),
    "l3": (LEVELS, "that of its L3 caches, with the uses that missed in an L2"),
}
NOTES = """cdp: each group is two, /NAME for its data and /NAME.code for its code, and each task is two, N and N + 1000 (or a greater power of ten).
l2, l3: groups and tasks keep their names; `resctrl_sim` says which uses missed in an L2.

What is carried: each use with its line, its mask and its hit or miss, masks and tasks of groups, the counts of groups, and for cdp the
windows. Commands that are refused are comments with their answers, and a read is one of each twin.
What is not carried: windows of cdp where masks for code and data of an exclusive group share ways, and in some caches where both are
rewritten at once (both are told on standard error); the joint windows of levels, in whose place each level has its own; positions in
histories. A script is refused that would pass a limit of resctrl_sim: twice its tasks, its weight, its bytes, a name; or whose commands
are more than 20000 with the reads that tell what they do.

exit status: 0 the script is written; 1 the input is invalid, or cannot be carried; 2 the command line is wrong; 3 something could not be
read or run; 4 the output could not be written."""


def words_given(arguments):
    words = argparse.ArgumentParser(
        prog=tool_name("translate"), description=__doc__, epilog=NOTES, formatter_class=argparse.RawDescriptionHelpFormatter, allow_abbrev=False
    )
    words.add_argument("form", choices=FORMS, help="; ".join(f"{form}: {purpose}" for form, (_, purpose) in FORMS.items()))
    words.add_argument("file", metavar="SCRIPT", nargs="?", default="-", help="a file; - is standard input (default)")
    return words.parse_args(arguments)


def translated(form, data, name):
    """The plain script of these bytes, and what it does not carry."""
    script = read_recorded(data, name, FORMS[form][0])
    if form == "cdp":
        return Translation(script).made()
    return (l2_script if form == "l2" else l3_script)(script, steps_of(script)), []


def main(arguments):
    given = words_given(arguments)
    data = bytes_of(given.file)
    with shown("translating"):
        text, warnings = translated(given.form, data, name_of(given.file))
    for warning in warnings:
        say(tool_name("translate"), f"{name_of(given.file)}: {warning}")
    sys.stdout.write(text)
    return 0
