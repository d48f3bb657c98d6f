"""The windows of journals, as the proved report of them tells them."""
from bikhnoun.playing import played
from bikhnoun.telling import Stopped
from resctrl_sim.programs import REPLAY, ended, find

WORDS = ("report", "--windows", "--quiet")


def windows_of(data):
    """The lines of the windows of journals that are a run, or None where the program that counts them is missing."""
    program = find(REPLAY)
    if program is None:
        return None
    done = played([program, *WORDS], data, "counting windows")
    if done.returncode:
        raise Stopped(ended(REPLAY, done.returncode), done.returncode if done.returncode > 0 else 128 - done.returncode)
    return [line for line in done.stdout.decode("ascii").splitlines() if line.startswith("window ")]
