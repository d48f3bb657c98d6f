"""Says where and why a script is invalid, and of a valid one what is likely a mistake in it; and the same of journals, traces and machine
lines."""
import argparse
import json

from bikhnoun.calling import bytes_of
from bikhnoun.playing import played
from bikhnoun.telling import Stopped
from judged import command as judging
from resctrl_sim.names import tool_name
from resctrl_sim.programs import ended, find, required

from . import kinds, page, plays, remarks
from .guesses import check_bytes
from .lackey import Trace
from .lines import Refused, lines_of, words_of
from .machine import read_machine
from .pair_plays import of_pair_report
from .pairs import read_pair_script
from .reader import Fault, read_script

NOTES = """The verdict is the program's: what it says stands first, where it is there. A script that is invalid is shown with its file, line and
column, the word that is meant, the limit that it passes, and a hint. A valid script is played, for what its report tells. Of journals
the checker's answer stands first, and then the place at which a clause is false; of a trace, how many uses it has.

exit status: 0 the file is valid, with remarks or without; 1 it is invalid; 2 the command line is wrong; 3 something could not be read or
run; 4 the output could not be written; 6 the journals are no run."""
VALID, INVALID = 0, 1


def words_given(arguments):
    words = argparse.ArgumentParser(
        prog=tool_name("explain"), description=__doc__, epilog=NOTES, formatter_class=argparse.RawDescriptionHelpFormatter, allow_abbrev=False
    )
    given = words.add_mutually_exclusive_group()
    given.add_argument("file", metavar="FILE", nargs="?", help="a script, a script with journals, or a trace of lackey; - is standard input (default)")
    given.add_argument("--machine", metavar="KEYS", help="a machine line without its first word, as `bikhnoun mount --machine` takes it")
    words.add_argument(
        "--for", dest="kind", choices=kinds.KINDS,
        help="what FILE is: a script of resctrl_sim, resctrl_cdp or resctrl_l2, a script with journals, or a trace; without it, that is found "
        "out by words that no other kind has, and a script without any is one of resctrl_sim",
    )
    words.add_argument("--program", metavar="PATH", help="the program of this kind, if it is neither built here nor on the PATH")
    return words.parse_args(arguments)


def play(program, words, data):
    """What the program says of a script, with its exit status."""
    done = played([program, *words], data)
    return done.returncode, done.stdout.decode("ascii", "replace")


def explain_fault(name, kind, fault, program, data):
    """Shows why a script is invalid."""
    words = ["step", "--quiet"] if kind == kinds.SIM else ["--quiet"]
    said = play(program, words, data)[1].strip() if program else ""
    if program and said != fault.program_line():
        raise Stopped(f"the program says `{said}`, and this tool reads `{fault.program_line()}`: please report it")
    print(f"the program: {said}" if program else "the program is not here, so this is the tool's own reading")
    print(page.show_fault(name, fault))
    return INVALID


def remarks_of_play(script, kind, program, data):
    """The remarks that a play tells."""
    status, said = play(program, ["step", "--json", "--windows", "--journal"] if kind == kinds.SIM else [], data)
    if status == INVALID:
        raise Stopped(f"the program says `{said.strip()}`, and this tool reads a valid script: please report it")
    if status:
        raise Stopped(ended(kinds.PROGRAMS[kind], status))
    return plays.of_report(script, json.loads(said)) if kind == kinds.SIM else of_pair_report(script, said)


def explain_script(name, kind, program, data):
    """Shows why a script is invalid, or what is likely a mistake in it."""
    script = read_script(data) if kind == kinds.SIM else read_pair_script(data, kind)
    if isinstance(script, Fault):
        return explain_fault(name, kind, script, program, data)
    lines, found = lines_of(data), remarks_of_play(script, kind, program, data) if program else []
    if kind == kinds.SIM:
        found = remarks.of_lines(script, lines) + found
    verdict = "the program plays this script" if program else f"{kinds.PROGRAMS[kind]} is missing; this tool reads a valid script"
    print(f"{verdict}: {len(found)} remark{'s' * (len(found) != 1)}")
    for remark in sorted(found, key=lambda one: one.line or len(lines) + 1):
        print(page.show_remark(name, lines, remark))
    return VALID


def explain_trace(name, data):
    """Shows the first bad line of a trace, or what the trace has."""
    trace = Trace()
    for at, line in enumerate(lines_of(data), 1):
        try:
            trace.read(line)
        except Refused as why:
            print(page.show_fault(name, Fault(at, line, why)))
            return INVALID
    print(f"a trace of lackey: {trace.text()}")
    return VALID


def explain_machine(text):
    """Shows what is wrong with the words of a machine line, or that nothing is."""
    line = text if text.startswith("machine ") or text == "machine" else f"machine {text}"
    try:
        check_bytes(line, 1)
        machine = read_machine(words_of(line))
    except Refused as why:
        print(page.show_fault("--machine", Fault(1, line, why)))
        return INVALID
    lines = machine.domains * machine.sets * machine.ways
    print(f"a machine of {lines} lines in {machine.domains} domain{'s' * (machine.domains != 1)}, {lines * 64} bytes in all")
    return VALID


def main(arguments):
    given = words_given(arguments)
    if given.machine is not None:
        return explain_machine(given.machine)
    file = "-" if given.file is None else given.file
    data = bytes_of(file)
    kind = given.kind or kinds.kind_of(lines_of(data))
    if kind == kinds.TRACE:
        return explain_trace(file, data)
    if kind == kinds.JOURNALS:
        return judging.explain(data, given.program)
    name = kinds.PROGRAMS[kind]
    program = required(name, given.program) if given.program else find(name)
    return explain_script(file, kind, program, data)
