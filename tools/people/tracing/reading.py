"""The files of traces, and how much of them is read."""
from itertools import chain
import os
import sys

from . import BadTrace, lackey, perf

OPENED = []


def named(file):
    """A file, as it is told of."""
    return "standard input" if file == "-" else file


def stream_of(file):
    """The lines of a trace, or of standard input for `-`."""
    stream = sys.stdin.buffer if file == "-" else open(file, "rb")
    OPENED.append(stream)
    return stream


def trace_of(file, with_code):
    """The trace in a file, known by its first line that is not blank."""
    lines = iter(stream_of(file))
    first = next((line for line in lines if line.strip()), None)
    if first is None:
        raise BadTrace("is empty")
    if lackey.is_trace(first):
        return lackey.Lackey(chain([first], lines), with_code)
    if perf.is_trace(first):
        return perf.Samples(chain([first], lines), named(file))
    raise BadTrace("begins neither as a trace of lackey nor as perf script -F addr,data_src prints samples")


def told_of(lanes):
    """What the line of progress tells of lanes, by the seconds that are spent: which share is read, and how many uses, how fast."""

    def told(spent):
        uses = sum(lane.taken for lane in lanes)
        return share_read(), f"{uses / 1e6:.1f} million uses, {uses / spent:,.0f} a second"

    return told


def share_read():
    """Which share of all traces is read, or None where one is no file with a size. They are read elsewhere meanwhile."""
    try:
        sizes = [os.fstat(stream.fileno()).st_size for stream in OPENED]
        return sum(os.lseek(stream.fileno(), 0, os.SEEK_CUR) for stream in OPENED) / sum(sizes) if sizes and all(sizes) else None
    except (OSError, ValueError):
        return None
