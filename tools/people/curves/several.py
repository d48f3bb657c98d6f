"""The curves of several traces, each made by a process of its own."""
import os
import subprocess

from bikhnoun.calling import name_of, write
from bikhnoun.players import players
from bikhnoun.progress import Progress
from bikhnoun.telling import Stopped
from resctrl_sim import programs


def curve(program, words, trace):
    """The curve of a trace: the exit status, and what was written."""
    if trace == "-":
        return ended(subprocess.run([program, *words], stdout=subprocess.PIPE, check=False))
    with open(trace, "rb") as file:
        return ended(subprocess.run([program, *words], stdin=file, stdout=subprocess.PIPE, check=False))


def ended(done):
    return done.returncode, done.stdout


def curves(planned, words, traces, scheduler, name):
    """Makes the curves side by side, and writes them in order, each after the name of its trace. Returns the exit status."""
    if "-" in traces and (scheduler or traces.count("-") > 1):
        raise Stopped("standard input is one trace alone, and none of a cluster", programs.USAGE)
    program = os.path.abspath(programs.required(planned.program))
    paths = [trace if trace == "-" else os.path.abspath(trace) for trace in traces]
    progress = Progress(planned.doing)
    with players(scheduler, curve) as (pool, _):
        plays = [pool.submit(curve, program, [*planned.words, *words], path) for path in paths]
        for count, (trace, play) in enumerate(zip(traces, plays), 1):
            status, report = play.result()
            if status in (programs.INVALID, programs.USAGE):
                message = report.decode("ascii", "replace").strip()
                raise Stopped(f"{name_of(trace)}: {message}{planned.after.format(trace)}" if status == programs.INVALID else message, status)
            if status:
                raise Stopped(programs.ended(planned.program, status), status if status > 0 else 128 - status)
            progress.end()
            write(f"trace {name_of(trace)}:\n".encode() + report)
            progress.show(count / len(traces), f"{count} of {len(traces)} traces")
    progress.end()
    return 0
