"""Asks the proved checker whether journals are a run of their script, and says beside its answer where a clause is false."""
import argparse

from bikhnoun.calling import bytes_of, name_of
from bikhnoun.playing import played
from bikhnoun.progress import shown
from bikhnoun.telling import Stopped
from explained.reader import Fault
from resctrl_sim.names import tool_name
from resctrl_sim.programs import CHECKER, INVALID, NO, ended, required

from . import telling
from .journal_lines import BadLine
from .verdict import case_of, divided, first_false
from .windows import windows_of

YES = 0
# So much takes this reading a minute, and 1.2 GB of memory.
MOST_BYTES = 1 << 26
NOTES = """The first line is the answer of the proved checker. At `yes` the windows of these journals follow, as the proved `resctrl_replay report
--windows` tells them. Each other line begins with `not proved:`. At `no CLAUSE` they say what the clause asks, and name the first
entry or line at which it is false; at `yes` they have SHA-256 of script and journals, and what these consist of. Of an invalid file, the checker's message goes to standard error, and then what is wrong with its line.

exit status: 0 the answer is yes; 1 the script or the file is invalid; 2 the command line is wrong; 3 the input could not be read, or the
program is missing; 4 the output could not be written; 5 out of memory; 6 the answer is no."""


def parser_of(word, description, notes):
    """What reads the words after `check` and `statement`, which take the same."""
    words = argparse.ArgumentParser(
        prog=tool_name(word), description=description, epilog=notes, formatter_class=argparse.RawDescriptionHelpFormatter, allow_abbrev=False
    )
    words.add_argument("file", metavar="JOURNAL", nargs="?", default="-", help="a script with its journals; - is standard input (default)")
    words.add_argument("--program", metavar="PATH", help="resctrl_check, if it is neither built here nor on the PATH")
    return words


def asked(program, data):
    """The status and the answer of the proved checker."""
    done = played([program, "check"], data, "checking")
    if done.returncode not in (YES, INVALID, NO):
        raise Stopped(ended(CHECKER, done.returncode), done.returncode if done.returncode > 0 else 128 - done.returncode)
    return done.returncode, done.stdout.decode("ascii", "replace").rstrip("\n")


def own_reading(data):
    """This reading's answer, the place at which a clause is false or None, and lines that explain any other answer."""
    division = divided(data)
    try:
        case = case_of(data, division)
    except BadLine as why:
        return f"line {why.line}: bad journal", None, telling.of_bad_line(why)
    if isinstance(case, Fault):
        return case.program_line(), None, telling.of_script(case, division)
    if case is None:
        return "line 0: no journal", None, telling.of_missing()
    found = first_false(case)
    return (f"no {found[0]}", found[1], ()) if found else ("yes", None, telling.of_run(case, division))


def beside(answer, data):
    """The lines beside the proved answer."""
    if answer.startswith("no "):
        yield telling.of_clause(answer.removeprefix("no "))
    if answer == "yes":
        yield from telling.of_windows(windows_of(data))
    if len(data) > MOST_BYTES:
        yield telling.of_length(MOST_BYTES)
        return
    with shown("looking where"):
        own, place, lines = own_reading(data)
        found = list(telling.of_difference(own) if own != answer else [telling.of_place(place)] if place else lines)
    yield from found


def tell(status, answer, data):
    """Prints the answer of the checker and what is said beside it, and returns the exit status."""
    print(answer, flush=True)
    for line in beside(answer, data):
        print(line)
    return status


def explain(data, path):
    """The same for `explain`, which explains an invalid file where it explains a valid one."""
    return tell(*asked(required(CHECKER, path), data), data)


def main(arguments):
    given = parser_of("check", __doc__, NOTES).parse_args(arguments)
    program, data = required(CHECKER, given.program), bytes_of(given.file)
    status, answer = asked(program, data)
    if status == INVALID:
        raise Stopped("\n".join([f"{name_of(given.file)}: {answer}", *beside(answer, data)]), status)
    return tell(status, answer, data)
