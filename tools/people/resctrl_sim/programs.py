"""The proved programs: what each is called, where it is found, and what its exit status means."""
import os
import shutil
import signal

HERE = os.path.dirname(os.path.realpath(__file__))
# This package is PEOPLE/resctrl_sim, with PEOPLE either tools/people of a clone or share/resctrl-sim/tools/people of an installation.
CRATES = os.path.normpath(os.path.join(HERE, *[".."] * 3, "crates"))
INSTALLED = os.path.normpath(os.path.join(HERE, *[".."] * 5, "bin"))

SIMULATOR, PLANNER, CHECKER = "resctrl_sim", "resctrl_plan", "resctrl_check"
CDP, LEVELS, REPLAY = "resctrl_cdp", "resctrl_l2", "resctrl_replay"
PROGRAMS = (SIMULATOR, PLANNER, CHECKER, CDP, LEVELS, REPLAY)

INVALID, USAGE, UNREAD, UNWRITTEN, NO_MEMORY, NO = range(1, 7)
MEANINGS = {
    INVALID: "the input is invalid",
    USAGE: "these words are none of its forms",
    UNREAD: "the input could not be read",
    UNWRITTEN: "the output could not be written",
    NO_MEMORY: "there is not enough memory; nothing was written",
}


class Missing(RuntimeError):
    """A program is not there."""


def places(name):
    """Where a program may be: as its variable says (RESCTRL_SIM and so on), built in this clone, installed beside this package, on PATH."""
    yield os.environ.get(name.upper())
    yield os.path.join(CRATES, name, "out", name)
    yield os.path.join(INSTALLED, name)
    yield shutil.which(name)


def is_runnable(path):
    return bool(path) and os.path.isfile(path) and os.access(path, os.X_OK)


def find(name):
    """The path of a program, or None where there is none."""
    return next((path for path in places(name) if is_runnable(path)), None)


def required(name, path=None):
    """The path that is given, or else where the program is found. Missing says what was looked for."""
    if path and not is_runnable(path):
        raise Missing(f"{path} is not a program")
    if not (found := path or find(name)):
        raise Missing(f"{name} is missing: it is neither built here (`make build`) nor on the PATH")
    return found


def ended(name, status):
    """What an exit status of a program means, in words."""
    if status < 0:
        return f"{name} was ended by {signal.Signals(-status).name}"
    return f"{name}: {MEANINGS.get(status, 'no cause is known')} (exit status {status})"
