"""`plan share`: merges the traces of several programs into one stream of turns, and has the planner count and divide."""
from contextlib import suppress
import signal
import subprocess

from bikhnoun.calling import terminated, write
from bikhnoun.progress import shown
from bikhnoun.telling import Stopped, say
from bikhnoun.workers import started
from resctrl_sim import programs
from tracing import BadTrace
from tracing.levels import FirstLevels
from tracing.merging import Lane
from tracing.reading import named, told_of, trace_of

from .streams import stream_lines

GOALS = {"misses": (), "ratio": ("--ratio",)}
NOTES = """Each TRACE is one of valgrind's tool lackey or of `perf mem`, a file or a pipe; - is standard input. It is read once, and nothing of it
is kept. The programs take turns of as many uses as --ratio says, until one of them has ended; its instructions are uses too. First levels
are each program's own. The report names the programs by their numbers, from 0; which is which is told on standard error. Some 200,000 uses
a second are read."""


def add_words(part):
    """Adds the words after those for the cache."""
    part.add_argument("traces", metavar="TRACE", nargs="+", help="a trace of each program, 32 at most")
    part.add_argument("--l1", metavar="SETSxWAYS", help="count what misses in each program's L1 for data and its L1 for code, each of so many sets and ways")
    part.add_argument("--l2", metavar="SETSxWAYS", help="count what misses in its L2 for both, too, which is used where the L1 misses")
    part.add_argument("--ratio", metavar="A:B", help="how many uses of each program come in turn (1:1)")
    part.add_argument("--rest", action="store_true", help="go on with the other programs where one has ended")
    part.add_argument("--goal", choices=GOALS, default="misses", help="the fewest weighted misses of all, or the least worst ratio of misses (%(default)s)")
    part.add_argument("--weights", metavar="A:B", help="how much a miss of each program counts, from 1 to 1000 (1:1)")
    part.add_argument("--least", metavar="A:B", help="the fewest ways that each program gets (1:1)")


def numbers(text, count, flag):
    """As many positive numbers as there are programs; ones where none are given."""
    parts = text.split(":") if text is not None else ["1"] * count
    if not all(part.isascii() and part.isdigit() and int(part) > 0 for part in parts) or len(parts) != count:
        raise Stopped(f"{flag} must have a number above 0 for each trace", programs.USAGE)
    return [int(part) for part in parts]


def lanes_of(given, names):
    """The traces, and their lanes."""
    shares = numbers(given.ratio, len(names), "--ratio")
    traces = []
    for file, name in zip(given.traces, names):
        try:
            traces.append(trace_of(file, True))
        except BadTrace as bad:
            raise Stopped(f"{name} {bad}", programs.INVALID) from None
    lanes = [Lane(number, share, trace, FirstLevels(None, None)) for number, (share, trace) in enumerate(zip(shares, traces))]
    return traces, lanes


def words_of(given, cache):
    """The words for the planner: the cache, the levels before it, the goal, and what each program asks for."""
    levels = [word for flag, shape in (("--l1", given.l1), ("--l2", given.l2)) if shape is not None for word in (flag, shape)]
    weights = numbers(given.weights, len(given.traces), "--weights")
    least = numbers(given.least, len(given.traces), "--least")
    return ["share", *cache, *levels, *GOALS[given.goal], *(f"{weight}:{ways}" for weight, ways in zip(weights, least))]


def feed(worker, lanes, takes_rest):
    """Writes the stream to the planner. One that reads no more has ended, and says why."""
    with shown("reading traces", told_of(lanes)):
        with suppress(BrokenPipeError):
            worker.stdin.writelines(stream_lines(lanes, takes_rest))
        with suppress(BrokenPipeError):
            worker.stdin.close()


def tell(name, names, lanes, traces):
    """Says on standard error which program is which, and what was made of it."""
    for number, (file, lane, trace) in enumerate(zip(names, lanes, traces)):
        say(name, f"program {number} is {file}: {lane.taken} uses")
        for warning in trace.warnings():
            say(name, f"{file} {warning}")
    if any(lane.has_more() for lane in lanes):
        ended = next(file for file, lane in zip(names, lanes) if lane.has_ended)
        say(name, f"it stops there, since {ended} has ended; --rest goes on with the others")


def share(given, cache, name):
    """Counts and divides, and returns the exit status."""
    path, names = programs.required(programs.PLANNER), [named(file) for file in given.traces]
    words = words_of(given, cache)
    traces, lanes = lanes_of(given, names)
    signal.signal(signal.SIGTERM, terminated)
    with started([path, *words], stdin=subprocess.PIPE, stdout=subprocess.PIPE) as worker:
        try:
            feed(worker, lanes, given.rest)
        except BadTrace as bad:
            raise Stopped(bad, programs.INVALID) from None
        report, status = worker.stdout.read(), worker.wait()
    if status in (programs.INVALID, programs.USAGE):
        raise Stopped(report.decode("ascii", "replace").strip(), status)
    if status:
        raise Stopped(programs.ended(programs.PLANNER, status), status if status > 0 else 128 - status)
    tell(name, names, lanes, traces)
    write(report)
    return status
