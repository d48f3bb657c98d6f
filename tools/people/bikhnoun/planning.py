"""`plan` and its forms: `curve`, `filter`, `divide` and `share`, which the proved planner answers, and `draw`."""
from collections.abc import Callable
from typing import NamedTuple

from resctrl_sim import programs

from .proved import PLANS, add_input, parser_of, run
from .telling import Stopped, say


def add_cache(part, is_named):
    """Adds the words that say which cache is meant. Where its machine is named, they are not its sets and ways."""
    if not is_named:
        part.add_argument("sets", metavar="SETS", help="the sets of the cache, from 1 to 1048576")
        part.add_argument("ways", metavar="WAYS", help="its ways, up to 32")
    part.add_argument(
        "--machine", metavar="NAME",
        help="the L3 cache of a machine, in place of SETS and WAYS: `here` is this one, as Linux shows it; others are skylake_sp and so on, see docs/MACHINES.md",
    )


def add_levels(part, doing):
    """Adds the words of the levels before the cache."""
    part.add_argument("--l1", metavar="SETSxWAYS", help=f"{doing} what misses in an L1 for data and one for code, each of so many sets and ways")
    part.add_argument("--l2", metavar="SETSxWAYS", help=f"{doing} what misses in an L2 for both, too, which is used where the L1 misses")


def add_divide(part, is_named):
    """Adds the words of `divide`."""
    add_input(part, PLANS["divide"])


def add_filter(part, is_named):
    """Adds the words of `filter`."""
    add_levels(part, "write")
    add_input(part, PLANS["filter"])


def add_curve(part, is_named):
    """Adds the words of `curve`."""
    part.usage = "bikhnoun plan curve [-h] (SETS WAYS | --machine NAME) [--l1 SETSxWAYS] [--l2 SETSxWAYS] [--one-of N [--scaled]] [--first] [--scheduler ADDRESS] [TRACE ..]"
    add_cache(part, is_named)
    add_levels(part, "count")
    part.add_argument("--one-of", metavar="N", help="count a sample: the uses of one line of memory of N, in N times fewer sets")
    part.add_argument("--scaled", action="store_true", help="print N times the misses of the sample, too, which estimate those of all lines")
    part.add_argument("--first", action="store_true", help="count the first uses of lines, too, which takes memory for each line")
    part.add_argument("traces", metavar="TRACE", nargs="*", default=["-"], help="a file; - is standard input (default); several are counted side by side")
    part.add_argument(
        "--scheduler", metavar="ADDRESS",
        help="of a Dask scheduler, whose workers count the traces, each with the program and the traces at the same paths (Debian: python3-distributed)",
    )


def add_share(part, is_named):
    """Adds the words of `share`."""
    from sharing.command import NOTES, add_words

    part.usage = (
        "bikhnoun plan share [-h] (SETS WAYS | --machine NAME) [--l1 SETSxWAYS] [--l2 SETSxWAYS] [--ratio A:B] [--rest] [--goal GOAL] "
        "[--weights A:B] [--least A:B] TRACE .."
    )
    part.epilog = NOTES
    add_cache(part, is_named)
    add_words(part)


def add_draw(part, is_named):
    """Adds the words of `draw`."""
    part.add_argument("svg", metavar="FILE.svg", help="the picture, drawn by gnuplot (Debian: gnuplot-nox)")
    part.add_argument("file", metavar="PLAN", nargs="?", default="-", help="what divide printed; - is standard input (default)")
    part.add_argument("--domain", type=int, default=0, metavar="D", help="the cache (default: 0)")


def shape_of(given, name):
    """The sets and ways of the cache that is meant. Those of a machine are told."""
    if given.machine is None:
        return given.sets, given.ways
    from machines.named import UnknownMachine, cache_of

    try:
        cache = cache_of(given.machine)
    except UnknownMachine as why:
        raise Stopped(why, programs.USAGE) from None
    say(name, f"{given.machine}: {cache.sets} sets of {cache.ways} ways")
    return str(cache.sets), str(cache.ways)


def level_words(given):
    """The words for the levels before."""
    return [word for flag, shape in (("--l1", given.l1), ("--l2", given.l2)) if shape is not None for word in (flag, shape)]


def curve_words(given, name):
    """The words after `curve`."""
    sample = () if given.one_of is None else ("--one-of", given.one_of)
    switches = (("--scaled", given.scaled), ("--first", given.first))
    return *shape_of(given, name), *level_words(given), *sample, *(flag for flag, is_given in switches if is_given)


def curve(given, name):
    """The curve of a trace, or those of several, which are made side by side."""
    words = curve_words(given, name)
    if len(given.traces) == 1 and given.scheduler is None:
        given.file, given.flags = given.traces[0], []
        return run(PLANS["curve"], given, words)
    from curves.several import curves

    return curves(PLANS["curve"], words, given.traces, given.scheduler, name)


def filtered(given, name):
    return run(PLANS["filter"], given, level_words(given))


def divide(given, name):
    return run(PLANS["divide"], given)


def share(given, name):
    from sharing.command import share as shared

    return shared(given, shape_of(given, name), name)


def draw(given, name):
    from curves.plans import draw_plan

    return draw_plan(given.file, given.svg, given.domain)


class Form(NamedTuple):
    """A form: what it is for, what adds its words, and what runs it."""

    purpose: str
    add: Callable
    run: Callable


FORMS = {
    "curve": Form(PLANS["curve"].purpose, add_curve, curve),
    "filter": Form(PLANS["filter"].purpose, add_filter, filtered),
    "divide": Form(PLANS["divide"].purpose, add_divide, divide),
    "share": Form("counts what several programs miss if they share a cache, and divides its ways among them", add_share, share),
    "draw": Form("draws the curves that divide prints, with its plan", add_draw, draw),
}


def plan(arguments, name):
    """`plan curve` and the other forms. Their flags may stand between their other words."""
    words = parser_of(name, "counts how often programs hit with each number of ways, and divides ways among groups or programs")
    forms = words.add_subparsers(dest="form", metavar="FORM", required=True)
    parts = {}
    for word, form in FORMS.items():
        parts[word] = forms.add_parser(word, help=form.purpose, description=form.purpose[0].upper() + form.purpose[1:] + ".", allow_abbrev=False)
    if not arguments or arguments[0] not in FORMS:
        return words.parse_args(arguments)
    form, part = FORMS[arguments[0]], parts[arguments[0]]
    form.add(part, any(word.startswith("--machine") for word in arguments))
    return form.run(part.parse_intermixed_args(arguments[1:]), name)
