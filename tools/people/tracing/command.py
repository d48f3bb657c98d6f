"""Makes a script of memory traces, or one trace: of what valgrind's tool lackey writes, or of samples of `perf mem`."""
import argparse
import os
import sys

from bikhnoun.progress import shown
from explained.kinds import CDP, LEVELS, SIM, TRACE
from machines.named import UnknownMachine, keys_of
from resctrl_sim.names import tool_name

from . import LINE_BYTES, BadTrace
from .levels import FirstLevels, Shape
from .merging import Lane, accesses
from .proving import Behind
from .reading import named, told_of, trace_of
from .writing import COMMANDS_WEIGHT, WRITERS

EXAMPLES = """examples:
  valgrind --tool=lackey --trace-mem=yes ls 2>&1 >/dev/null | bikhnoun traces > ls.script
  bikhnoun traces --l1 32K:8 --l2 1M:16 --ratio 3:1 web.trace batch.trace > both.script
  perf script -F addr,data_src | bikhnoun traces > samples.script
  valgrind --tool=lackey --trace-mem=yes --log-fd=9 ls 9>&1 >/dev/null 2>/dev/null | bikhnoun traces --proved --for trace --l1 32K:8 --code > ls.trace

Some 300,000 uses a second are read and go through first levels, and some millions with --proved; on a terminal a line says how many have, how fast, and how long the rest
of the files will take."""


def shape(text):
    """The size and the ways of a level."""
    try:
        return Shape(text)
    except ValueError:
        raise argparse.ArgumentTypeError(f"{text} is not a size in bytes with ways, as 32K:8, of whole sets of lines of {LINE_BYTES} bytes")


def words(arguments):
    """The words of the command line."""
    parser = argparse.ArgumentParser(
        prog=tool_name("traces"), description=__doc__, epilog=EXAMPLES, formatter_class=argparse.RawDescriptionHelpFormatter
    )
    parser.add_argument("traces", metavar="TRACE", nargs="*", default=["-"], help="a file, or - for standard input (default)")
    parser.add_argument(
        "--for", dest="kind", choices=WRITERS, default=SIM,
        help=f"what is made: a script of resctrl_sim (%(default)s), of resctrl_cdp with code and data apart ({CDP}), of resctrl_l2 ({LEVELS}), "
        f"or one {TRACE} of the uses that go on, as lackey writes them, for `bikhnoun plan curve` and this tool",
    )
    parser.add_argument(
        "--machine", metavar="KEYS",
        help=f"the keys of the machine line ({WRITERS[SIM][2]}; with --for {LEVELS} also l2_sets=512 l2_ways=8), or a name of docs/MACHINES.md",
    )
    parser.add_argument("--tasks", metavar="A,B", help="the task of each trace (1,2 and so on)")
    parser.add_argument("--head", metavar="FILE", help="all lines before the accesses, machine and groups among them")
    parser.add_argument("--l1", type=shape, metavar="SIZE:WAYS", help="leave out what hits in an L1, as 32K:8")
    parser.add_argument("--l2", type=shape, metavar="SIZE:WAYS", help="leave out what hits in an L2, as 1M:16")
    parser.add_argument(
        "--proved", action="store_true",
        help="have the proved planner play the first levels, some seven times as fast: of one trace of lackey, with --code, whose lines are all of a trace",
    )
    parser.add_argument("--ratio", metavar="A:B", help="how many uses of each trace come in turn (1:1)")
    parser.add_argument("--rest", action="store_true", help="go on with the other traces where one has ended")
    parser.add_argument("--code", action="store_true", help=f"instructions that lackey tells are uses too; with --for {CDP} they always are")
    parser.add_argument(
        "--most", type=int, metavar="N",
        help=f"stop after so many accesses (4000000, or 3900000 with --head; 2000000 of {CDP} and {LEVELS}; all of a {TRACE})",
    )
    return parser.parse_args(arguments)


def stop(why):
    """Ends with one sentence."""
    sys.exit(f"{tool_name('traces')}: {why}")


def numbers(text, separator, count, what):
    """As many positive numbers as there are traces."""
    parts = text.split(separator)
    if not all(part.isascii() and part.isdigit() and int(part) > 0 for part in parts) or len(parts) != count:
        stop(f"{what} must have a number above 0 for each trace")
    return [int(part) for part in parts]


def head_of(given, tasks):
    """The lines before the accesses."""
    if given.head:
        with open(given.head, encoding="ascii") as file:
            text = file.read()
        return text if text.endswith("\n") else text + "\n"
    if given.kind == TRACE:
        return ""
    try:
        keys = keys_of(given.machine) if given.machine else WRITERS[given.kind][2]
    except UnknownMachine as why:
        stop(why)
    return f"machine {keys}\ntasks {' '.join(str(task) for task in tasks)}\n" + ("phase\nthread\n" if given.kind == SIM else "")


def write(script, lanes, takes_rest):
    """Writes accesses until there are no more, or no room."""
    with shown("reading traces", told_of(lanes)):
        for task, line, is_code in accesses(lanes, takes_rest):
            if not script.access(task, line, is_code):
                break
    script.end_run()
    script.out.flush()


def tell(script, lanes, traces, names, what):
    """Says on standard error what was made of what."""
    for name, lane, trace in zip(names, lanes, traces):
        gone = f"{lane.passed} uses of {name} go" if trace.is_behind_levels else f"{lane.taken} uses of {name}, of which {lane.passed} go"
        print(f"{tool_name('traces')}: task {lane.task}: {gone} on to the {what}", file=sys.stderr)
        for warning in trace.warnings():
            print(f"{tool_name('traces')}: {name} {warning}", file=sys.stderr)
    print(f"{tool_name('traces')}: the {what} has {script.accesses} accesses in {script.bytes} bytes", file=sys.stderr)
    if script.why_full:
        print(f"{tool_name('traces')}: it stops there, at {script.why_full}; what follows in the traces is left out", file=sys.stderr)
    elif any(lane.has_more() for lane in lanes):
        ended = next(name for name, lane in zip(names, lanes) if lane.has_ended)
        print(f"{tool_name('traces')}: it stops there, since {ended} has ended; --rest goes on with the others", file=sys.stderr)


def reading(given, names):
    """The traces that are named, and their lanes."""
    count = len(names)
    tasks = numbers(given.tasks, ",", count, "--tasks") if given.tasks else list(range(1, count + 1))
    shares = numbers(given.ratio, ":", count, "--ratio") if given.ratio else [1 if count > 1 else sys.maxsize] * count
    if len(set(tasks)) < count:
        stop("--tasks must not name a task twice")
    has_code = given.code or given.kind == CDP
    if given.proved and not (count == 1 and has_code and (given.l1 or given.l2)):
        stop("--proved is for one trace, with --code and a first level")
    traces = []
    for file, name in zip(given.traces, names):
        try:
            traces.append(Behind(file, given.l1, given.l2) if given.proved else trace_of(file, has_code))
        except BadTrace as bad:
            stop(f"{name} {bad}")
    levels = (None, None) if given.proved else (given.l1, given.l2)
    lanes = [Lane(task, share, trace, FirstLevels(*levels)) for task, share, trace in zip(tasks, shares, traces)]
    return traces, lanes


def make(arguments):
    given = words(arguments)
    names = [named(file) for file in given.traces]
    traces, lanes = reading(given, names)
    writer, most, _ = WRITERS[given.kind]
    if given.kind == SIM and given.head:
        most -= COMMANDS_WEIGHT
    script = writer(sys.stdout, head_of(given, [lane.task for lane in lanes]), given.most or most)
    write(script, lanes, given.rest)
    tell(script, lanes, traces, names, TRACE if given.kind == TRACE else "script")


def main(arguments):
    try:
        make(arguments)
    except BadTrace as bad:
        stop(bad)
    except BrokenPipeError:
        raise
    except OSError as error:
        # The rest of the script goes nowhere.
        os.dup2(os.open(os.devnull, os.O_WRONLY), sys.stdout.fileno())
        stop(f"{error.filename or 'standard output'}: {error.strerror}")
    return 0
