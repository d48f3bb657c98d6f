"""Random scripts of file commands, each made from a seed.

They have masks that overlap, modes, locks, CPUs, tasks, classes and RMIDs that run out, and texts that are bad in every way that a file
knows.
"""
from .drawing import Drawing

__all__ = ["list_of"]


def list_of(seed):
    """The lines of the script of a seed, always the same."""
    return Drawing(seed).lines()
