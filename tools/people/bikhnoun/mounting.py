"""The word `mount`, by a Python that has the library of FUSE."""
import os
import sys

from resctrl_sim.mounting import interpreter


def main(arguments, name):
    """Shows the tree. Where this Python has no fusepy, Debian's is asked in its place."""
    other = interpreter()
    if other != sys.executable and os.access(other, os.X_OK):
        os.execv(other, [other, *sys.argv])
    from resctrl_sim.mount.__main__ import main as mount

    return mount(arguments)
