"""A trace of lackey behind first levels that the proved planner plays, some seven times as fast as `levels`."""
from itertools import chain
import re
import subprocess
from threading import Thread

from bikhnoun.workers import started
from resctrl_sim import programs

from . import BadTrace
from .lackey import Lackey, is_trace, touched
from .reading import named, stream_of

CHUNK = 1 << 20
# What lackey says of itself.
SAID = re.compile(rb"^==.*\n?", re.M)


def words_of(first, second):
    """The words for the planner: the L1 for data and for code, and the L2, each of which may be left out."""
    shapes = (("--l1", first), ("--l2", second))
    return ["filter", *(word for flag, shape in shapes if shape for word in (flag, f"{shape.sets}x{shape.ways}"))]


def head_of(stream):
    """The lines up to the first that is not blank."""
    head = []
    for line in stream:
        head.append(line)
        if line.strip():
            break
    return head


class Behind(Lackey):
    """What the levels leave of a trace, and what valgrind said in it. Each line has to be one of a trace, since the planner reads them."""

    is_behind_levels = True

    def __init__(self, file, first, second):
        stream = stream_of(file)
        head = head_of(stream)
        if not head or not head[-1].strip():
            raise BadTrace("is empty")
        if not is_trace(head[-1]):
            raise BadTrace("does not begin as a trace of lackey, the only ones that --proved reads")
        super().__init__(head, True)
        self.name = named(file)
        self.stream = stream
        self.command = [programs.required(programs.PLANNER), *words_of(first, second)]

    def feed(self, sink):
        """Hands the trace on to the planner, and hears what valgrind says in it. A planner that reads no more has ended, and says why."""
        cut = b""
        try:
            with sink:
                for chunk in chain([b"".join(self.lines)], iter(lambda: self.stream.read1(CHUNK), b"")):
                    sink.write(chunk)
                    whole, newline, rest = chunk.rpartition(b"\n")
                    for said in SAID.findall(cut + whole):
                        self.hear(said)
                    cut = rest if newline else cut + rest
                self.hear(cut)
        except BrokenPipeError:
            pass

    def uses(self):
        """The lines of memory that the levels leave, in order, each with whether it is used as code."""
        with started(self.command, stdin=subprocess.PIPE, stdout=subprocess.PIPE) as worker:
            feeder = Thread(target=self.feed, args=(worker.stdin,), daemon=True)
            feeder.start()
            for line in worker.stdout:
                found = touched(line)
                if found is None:
                    raise BadTrace(f"{self.name}: {line.decode('ascii', 'replace').strip()}; without --proved it is passed over")
                kind, number, _ = found
                yield number, kind == b"I"
            status = worker.wait()
            feeder.join()
        if status:
            raise BadTrace(programs.ended(programs.PLANNER, status))
        self.was_read = True
