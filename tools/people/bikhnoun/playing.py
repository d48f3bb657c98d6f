"""Plays a script for a tool, with a line of progress meanwhile."""
import subprocess

from .progress import Progress
from .workers import started

WAIT = 0.5


def played(command, data, doing="playing"):
    """What a command wrote for these bytes, and its exit status: as `subprocess.run` gives them."""
    progress = Progress(doing)
    try:
        with started(command, stdin=subprocess.PIPE, stdout=subprocess.PIPE) as worker:
            given = data
            while True:
                try:
                    written, _ = worker.communicate(given, timeout=WAIT)
                    return subprocess.CompletedProcess(command, worker.returncode, written)
                except subprocess.TimeoutExpired:
                    # What was given goes on being written.
                    given = None
                    progress.show()
    finally:
        progress.end()
