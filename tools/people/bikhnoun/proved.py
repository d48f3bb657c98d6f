"""The words that stand for the proved programs: what each takes, and the words that it hands on."""
import argparse
from typing import NamedTuple

from resctrl_sim import programs

from .calling import call

REPORT_FLAGS = ("--journal", "--json", "--windows", "--quiet")
FLAG_HELPS = {
    "--journal": "the report also has each entry of the history of each cache slice",
    "--json": "the report is one JSON object",
    "--windows": "the report also has each window in which a group was exclusive",
    "--quiet": "the report has no lines of commands",
    "--compare": "each division is compared with the script as it is and with a cache that all groups share",
    "--used": "the report leaves out the curves of groups without uses; after --compare",
    "--apply": "the script is written with the plan's lines at its end, in place of the report; alone",
}
STATUSES = """exit status: 0 all is written; 1 the input is invalid; 2 the command line is wrong; 3 the input could not be read, or the
program is missing; 4 the output could not be written; 5 out of memory{}.
What the program writes is passed on byte for byte, but for the message of an invalid input, which goes to standard error."""
NO_RUN = "; 6 the journals are no run"
EXPLAINED = "; `bikhnoun explain {}` says more"
CHECKED = "; `bikhnoun check {}` says more"

MB = 1 << 20


def explained_as(kind):
    """What is said after the message of an invalid input of this kind, which `explain` could take for another."""
    return f"; `bikhnoun explain --for {kind} {{}}` says more"


class Proved(NamedTuple):
    """A word: its program, the words that it hands on before the flags, its input and its flags, what is said while it runs, how many
    bytes it does in a second (bench/README.md; None where it works while it reads), what it is for, what is said after the message of an
    invalid input, and its exit statuses beyond those of all."""

    program: str
    words: tuple[str, ...]
    source: str
    flags: tuple[str, ...]
    doing: str
    pace: int | None
    purpose: str
    after: str = ""
    more: str = ""


WORDS = {
    "play": Proved(programs.SIMULATOR, ("step",), "SCRIPT", REPORT_FLAGS, "playing", 200 * MB, "plays a script step by step, and writes its report", EXPLAINED),
    "run": Proved(
        programs.SIMULATOR, ("run",), "SCRIPT", REPORT_FLAGS, "playing", 50 * MB,
        "plays a script with a real thread for each of its threads, and writes its report", EXPLAINED,
    ),
    "order": Proved(
        programs.REPLAY, ("order",), "JOURNAL", (), "ordering", 50 * MB, "writes the script of journals with an order in which `play` gives the same journals",
        CHECKED, f"{NO_RUN}, or no order was found",
    ),
    "report": Proved(
        programs.REPLAY, ("report",), "JOURNAL", REPORT_FLAGS, "reporting", 50 * MB, "writes the report of journals, as `play` writes it of a script", CHECKED,
        NO_RUN,
    ),
    "cdp": Proved(
        programs.CDP, (), "SCRIPT", ("--quiet",), "playing", 25 * MB, "plays a script with traces on an L3 with masks for code and masks for data",
        explained_as("cdp"),
    ),
    "levels": Proved(
        programs.LEVELS, (), "SCRIPT", ("--quiet",), "playing", 35 * MB, "plays a script on an L2 and an L3 with masks of their own", explained_as("l2")
    ),
}
EXPORTS = {
    "step": Proved(programs.CHECKER, ("export", "step"), "SCRIPT", (), "playing", 100 * MB, "plays it step by step", EXPLAINED),
    "run": Proved(programs.CHECKER, ("export", "run"), "SCRIPT", (), "playing", 100 * MB, "plays it with real threads", EXPLAINED),
}
PLANS = {
    "curve": Proved(
        programs.PLANNER, ("curve",), "TRACE", (), "counting", None, "counts how often the program of a trace hits with each number of ways",
        explained_as("trace"),
    ),
    "filter": Proved(
        programs.PLANNER, ("filter",), "TRACE", (), "filtering", None, "writes what first levels leave of a trace, as a trace", explained_as("trace")
    ),
    "divide": Proved(
        programs.PLANNER, ("divide",), "SCRIPT", ("--compare", "--used", "--apply"), "dividing", 60 * MB, "counts this for the groups of a script, and divides the ways among them", EXPLAINED
    ),
}


def parser_of(name, purpose, more=""):
    return argparse.ArgumentParser(
        prog=name, description=purpose[0].upper() + purpose[1:] + ".", epilog=STATUSES.format(more),
        formatter_class=argparse.RawDescriptionHelpFormatter, allow_abbrev=False,
    )


def add_input(words, proved):
    words.add_argument("file", metavar=proved.source, nargs="?", default="-", help="a file; - is standard input (default)")
    words.set_defaults(flags=[])
    for flag in proved.flags:
        words.add_argument(flag, action="append_const", const=flag, dest="flags", help=FLAG_HELPS[flag])


def run(proved, given, extra=()):
    """Calls the program for words that were read. A flag that is given twice is none of its forms, as for the program."""
    return call(proved.program, [*proved.words, *extra, *given.flags], given.file, doing=proved.doing, pace=proved.pace, after=proved.after)


def one(word):
    """What reads the words after this word, and runs it."""

    def main(arguments, name):
        proved = WORDS[word]
        words = parser_of(name, proved.purpose, proved.more)
        add_input(words, proved)
        return run(proved, words.parse_args(arguments))

    return main


def export(arguments, name):
    """`export step` and `export run`."""
    words = parser_of(name, "plays a script, and writes it with the journals of this play, which `check` judges")
    words.add_argument("how", choices=EXPORTS, help="; ".join(f"{how}: {proved.purpose}" for how, proved in EXPORTS.items()))
    add_input(words, EXPORTS["step"])
    given = words.parse_args(arguments)
    return run(EXPORTS[given.how], given)
