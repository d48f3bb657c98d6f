"""Writes a page about a file of journals for an auditor, ready to be signed: what was judged, what the answer says, and what not."""
from hashlib import sha256

from bikhnoun.calling import bytes_of, name_of
from bikhnoun.progress import shown
from bikhnoun.telling import Stopped
from explained.reader import Fault
from judged.command import asked, parser_of
from judged.journal_lines import BadLine
from judged.verdict import case_of, divided, first_false
from judged.windows import windows_of
from resctrl_sim.programs import CHECKER, INVALID, REPLAY, SIMULATOR, find, required

from .groups_held import groups_of
from .page import page

NOTES = """The page has the machine, the groups with their modes and masks, when each was exclusive, the windows with their counts, SHA-256 of the
script, the journals and the programs, the answer of the proved checker with what it says and what it does not, and blanks for a name and a date. If the answer is
no, the page says so, and where. There is no page of an invalid file: `bikhnoun check` says what is wrong in it.

exit status: 0 the answer is yes; 1 the file is invalid; 2 the command line is wrong; 3 the input could not be read, or the program is
missing; 4 the output could not be written; 5 out of memory; 6 the answer is no."""


def digest(path):
    """The SHA-256 of a file."""
    return sha256(bytes_of(path)).hexdigest()


def hashes_of(division, checker):
    """SHA-256 of all that the answer depends on, each with its name."""
    found = [("script", sha256(division.script).hexdigest()), ("journals", sha256(division.journals).hexdigest())]
    found.append((CHECKER, digest(checker)))
    others = ((name, find(name)) for name in (REPLAY, SIMULATOR))
    return found + [(name, digest(path)) for name, path in others if path]


def read(data, division):
    """The script and the journals, which the checker has found valid."""
    try:
        case = case_of(data, division)
    except BadLine:
        case = None
    if case is None or isinstance(case, Fault):
        raise Stopped("the checker takes this file, and this tool's own reading does not: please report it with the file")
    return case


def lines_of(name, data, answer, checker):
    """The page, line by line."""
    division = divided(data)
    case = read(data, division)
    found = first_false(case)
    if (found is None) != (answer == "yes"):
        raise Stopped(f"the checker answers `{answer}`, and this tool's own reading does not: please report it with the file")
    place = found[1] if found and answer == f"no {found[0]}" else None
    groups = None if found else groups_of(case)
    windows = None if found else windows_of(data)
    return list(page(name_of(name), case, hashes_of(division, checker), groups, windows, answer, place))


def main(arguments):
    given = parser_of("statement", __doc__, NOTES).parse_args(arguments)
    checker, data = required(CHECKER, given.program), bytes_of(given.file)
    status, answer = asked(checker, data)
    if status == INVALID:
        raise Stopped(f"{name_of(given.file)}: {answer}; `bikhnoun check {given.file}` says more", INVALID)
    with shown("writing the page"):
        lines = lines_of(given.file, data, answer, checker)
    print("\n".join(lines))
    return status
