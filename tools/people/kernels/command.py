"""Plays scripts on a running Linux, and prints where it answers differently from the simulator.

The kernel is Debian's, built once by `--build`, with a simulated L3 in place of a processor's; it runs in QEMU, on one thread of this
machine. Each difference has the name of its rule, and where docs/RESCTRL.md has it. A command that only one of the two accepts is told
and then left out, and what follows is compared without it. Of a script only the file commands and `tick` are played: no RMID ever
holds a line, and limbo is emptied after each command. With --occupancy the kernel's counters have the simulator's lines, and the worker
of limbo runs at each `tick` alone; that needs the mount option `debug`, which 6.1 does not have. Texts of llc_occupancy are compared
only then.

exit status: 0 every difference has a rule; 1 one has none, or a script was not compared; 2 the words are wrong; 3 there is no kernel.
"""
import argparse
import sys
from pathlib import Path

from resctrl_sim import Broken, NoScript
from resctrl_sim.names import tool_name
from resctrl_sim.programs import SIMULATOR, find

from . import building, page, telling, versions
from .booting import LOCKING_MODEL
from .comparing import Options, compare
from .scripts import NotComparable, check, notes, read_script

NO_KERNEL = 3


def words_given(arguments):
    summary, _, rest = __doc__.partition("\n\n")
    words = argparse.ArgumentParser(prog=tool_name("kernel"), description=summary, epilog=rest, formatter_class=argparse.RawDescriptionHelpFormatter)
    words.add_argument("scripts", nargs="*", metavar="SCRIPT", help="a script of resctrl_sim, see docs/FORMAT.md")
    words.add_argument("--build", action="store_true", help=f"builds the kernel first: {building.COST}")
    words.add_argument("--kernel", choices=versions.VERSIONS, default=versions.FIRST, help="which Linux (default: %(default)s)")
    words.add_argument("--folder", type=Path, default=versions.cache_folder(), help="where kernels are kept (default: %(default)s)")
    words.add_argument("--program", default=find(SIMULATOR), help="resctrl_sim, where it is not the one that was built here")
    words.add_argument("--all", action="store_true", help="prints all commands, not only those that are answered otherwise")
    words.add_argument("--json", action="store_true", help="prints one JSON object a difference")
    words.add_argument("--occupancy", action="store_true", help="gives the kernel's counters the simulator's lines")
    words.add_argument("--go-on", action="store_true", help="leaves nothing out: compares on after the two trees have parted")
    words.add_argument("--model", type=int, default=LOCKING_MODEL, help="the processor's model number; on %(default)s Linux can pseudo-lock")
    words.add_argument("--page", action="store_true", help="writes the tables of rules into docs/RESCTRL.md, and ends")
    words.add_argument("--jobs", type=int, default=1, help="how many boots or compilers run at a time (default: %(default)s)")
    given = words.parse_args(arguments)
    if not given.build and not given.page and not given.scripts:
        words.error("a script, or --build")
    return given


def say(line):
    print(line, file=sys.stderr, flush=True)


def kernel_of(given):
    """The kernel that is asked for, which is built where that is asked for too."""
    built = versions.Built(given.folder, versions.VERSIONS[given.kernel])
    if given.build:
        building.build(built, given.jobs, say)
    if not built.is_there:
        raise versions.NotBuilt(f"there is no Linux {given.kernel} in {given.folder}: bikhnoun kernel --build makes it ({building.COST})")
    if given.occupancy and not built.version.has_debug:
        raise versions.NotBuilt(f"Linux {given.kernel} has no mount option `debug`, so --occupancy cannot be used with it")
    return built


def scripts_of(given):
    """The scripts that can be compared. What cannot is said."""
    for name in given.scripts:
        try:
            script = read_script(name, Path(name).read_text(encoding="ascii").splitlines(), given.program)
            check(script)
        except (NotComparable, NoScript, UnicodeDecodeError, OSError) as why:
            say(f"{name}: not compared: {why}")
            continue
        for note in notes(script):
            say(f"{name}: {note}")
        yield script


def show(comparisons, given):
    """Prints what was found."""
    for comparison in comparisons:
        lines = (
            telling.as_json(comparison, given.kernel)
            if given.json
            else telling.tell(comparison, given.kernel, all_commands=given.all)
        )
        print("\n".join(lines))


def main(arguments):
    given = words_given(arguments)
    if given.page:
        page.write()
        return 0
    try:
        built = kernel_of(given)
        scripts = list(scripts_of(given))
        options = Options(built, given.program, given.model, given.occupancy, given.go_on, given.jobs)
        comparisons = compare(scripts, options)
    except (versions.NotBuilt, Broken) as why:
        say(f"{tool_name('kernel')}: {why}")
        return NO_KERNEL
    show(comparisons, given)
    failed = any(one.complaints or any(found.is_unknown for found in one.in_order) for one in comparisons)
    return 1 if failed or len(scripts) < len(given.scripts) else 0

