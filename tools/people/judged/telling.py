"""What is printed beside the checker's answer. Each line says that it is not proved, but for those of windows, which are."""
from hashlib import sha256
import re

from .clauses import CLAUSES

MARK = "not proved: "


def of_clause(clause):
    """What a clause asks."""
    return f"{MARK}{clause} asks that {CLAUSES.get(clause, 'something that this tool does not know')}"


def of_place(found):
    """Where a clause is false."""
    return f"{MARK}{found.place}: {found.because}"


def of_windows(lines):
    """The windows of the journals, which are proved; or that nothing is there to count them."""
    yield from [f"{MARK}resctrl_replay is missing, so the windows are not told"] if lines is None else lines


def of_length(most):
    """That a file is too long for this reading, which is a slow one."""
    return f"{MARK}the file has more than {most >> 20} MB, so where is not looked for"


def of_difference(own):
    """That this reading answers something else than the checker: then it knows no place."""
    yield f"{MARK}this tool's own reading answers `{own}`, so it cannot say where. Please report it with the file"


def plain(text):
    """A line of the file as a terminal can show it; of a long one its beginning."""
    shown = "".join(byte if " " <= byte <= "~" else "?" for byte in text)
    return shown if len(shown) <= 100 else shown[:97] + "..."


def of_bad_line(why):
    """A bad line of journals, and what is wrong with it."""
    yield f"{MARK}line {why.line}: {plain(why.text)}" if why.text else f"{MARK}line {why.line} is empty or not there"
    yield f"{MARK}{why.because}"


def of_script(fault, division):
    """A line of the script that is invalid, and why."""
    if re.fullmatch("journal 1\r*", fault.text):
        yield f"{MARK}the lines of the journals end with CR LF, so that `journal 1` does not begin them: each line has to end with LF alone"
        yield f"{MARK}`sed 's/\\r$//'` makes such a file"
        return
    yield f"{MARK}line {fault.line}: {plain(fault.text)}" if fault.text else f"{MARK}the script as a whole"
    yield f"{MARK}{fault.why.because}" + (f" (hint: {fault.why.hint})" if fault.why.hint else "")
    if division is None:
        yield f"{MARK}no line is `journal 1`: the whole file was read as a script"


def of_missing():
    """A file without journals."""
    yield f"{MARK}no line is `journal 1`, which ends the script and begins the journals; `bikhnoun export step` writes both"


def of_run(case, division):
    """What a run consists of."""
    yield f"{MARK}script   sha256 {sha256(division.script).hexdigest()}, {len(division.script)} bytes"
    yield f"{MARK}journals sha256 {sha256(division.journals).hexdigest()}, {len(division.journals)} bytes"
    yield f"{MARK}{len(case.journals.tree)} commands, {case.ops.accesses()} accesses"
    for number, entries in case.slices():
        yield f"{MARK}{case.name(number)}: {len(entries)} entries"
