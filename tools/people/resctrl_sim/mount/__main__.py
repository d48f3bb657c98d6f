"""Shows the simulated tree as a directory, until it is unmounted, or while a command runs."""
import os
import sys

from ..hints import because
from ..program import Broken, NoScript, Program
from . import record
from .recording import Recording, head_of, script_of
from .words import NAME, Stopped, check, machine_of, say, words_of


def recording_of(given):
    """The recording that is asked for. What the program does not take as a script is told before anything is mounted."""
    program = Program(given.program and os.path.abspath(given.program))
    program.require()
    name = given.record or given.resume
    file = record.Record(os.path.abspath(name)) if name else record.Unrecorded()
    head = record.lines_of(given.resume) if given.resume else head_of(given.machine, given.tasks)
    try:
        recording = Recording(program, head, file)
    except NoScript as why:
        raise Stopped(": ".join([place_of(given, why.line), why.what, *because(script_of(head), why)])) from why
    try:
        (file.replace if given.resume or given.force else file.begin)(recording.script())
    except OSError as why:
        raise Stopped(f"{name}: {why.strerror}") from why
    return recording


def place_of(given, line):
    """Where a line of the first script was told: in a file, or in an option."""
    options = {1: "--machine", 2: "--tasks"}
    return f"{given.resume}: line {line}" if given.resume else options.get(line, "--tasks")


def serve(given):
    """Mounts, and answers until the end."""
    try:
        import fusepy
        from .files import Files
        from .processes import Processes
    except ImportError as why:
        raise Stopped("the Python library fusepy is missing (Debian: python3-fusepy)") from why
    recording = recording_of(given)
    processes = Processes(recording) if given.pids else None
    shown = []

    def ready():
        shown.append(given.directory)
        say(f"{given.directory} shows the tree")

    files = Files(recording, ready, given.strict, processes)
    options = {"fsname": "resctrl_sim", "direct_io": True, "big_writes": True, "use_ino": True}
    options |= {"attr_timeout": 0, "entry_timeout": 0}
    try:
        fusepy.FUSE(files, given.directory, foreground=True, nothreads=True, **options)
    except RuntimeError as why:
        if given.record and not shown:
            os.unlink(given.record)
        raise Stopped(f"{given.directory} could not be mounted") from why


def run(given):
    """The status of a command that sees the tree where a kernel has it."""
    from .namespace import run_within

    return run_within(given)


def main(arguments=None):
    given = words_of(arguments)
    try:
        check(given)
        given.machine = machine_of(given)
        return run(given) if given.run else serve(given)
    except OSError as why:
        sys.exit(f"{NAME}: {why.filename or 'mount'}: {why.strerror}")
    except UnicodeEncodeError as why:
        sys.exit(f"{NAME}: {why.object[why.start]!r} is not ASCII, as a script has to be")
    except (Stopped, record.NoRecord, Broken) as why:
        sys.exit(f"{NAME}: {why}")


if __name__ == "__main__":
    sys.exit(main())
