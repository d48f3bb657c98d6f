"""The simulated tree at a directory, for as long as a block of code lasts."""
from contextlib import contextmanager, suppress
import ctypes
import os
from pathlib import Path
import signal
import subprocess
import sys
import tempfile
import time

PACKAGES = os.path.dirname(os.path.dirname(os.path.abspath(__file__)))
DEBIAN_PYTHON = "/usr/bin/python3"
LONGEST_SECONDS = 30
SIGNAL_AT_PARENTS_DEATH = 1


class NotMounted(RuntimeError):
    """The tree could not be mounted: the server's own line says why."""


@contextmanager
def mounted(machine="", tasks="", *, at=None, words=()):
    """The path at which the tree is shown, by a server of its own that ends with the block.

    machine   a Machine, or the keys of a machine line
    tasks     the tasks that are declared, as "1-8" or a list of ids
    at        an empty directory, in place of a new one
    words     more words of `tools/bikhnoun mount`, as ["--strict", "--record", "my.script"]
    """
    ids = tasks if isinstance(tasks, str) else " ".join(map(str, tasks))
    with directory(at) as path, tempfile.TemporaryFile("w+") as said:
        command = [interpreter(), "-m", "resctrl_sim.mount", "--machine", str(machine), "--tasks", ids, *words, path]
        environment = os.environ | {"PYTHONPATH": PACKAGES}
        with subprocess.Popen(command, env=environment, stderr=said, preexec_fn=stand_apart) as server:
            wait_for(path, server, said)
            try:
                yield Path(path)
            finally:
                unmount(path, server)


@contextmanager
def directory(at):
    """A directory that is given, or a new one."""
    if at is not None:
        yield os.path.abspath(at)
        return
    path = tempfile.mkdtemp(prefix="resctrl_sim.")
    try:
        yield path
    finally:
        with suppress(OSError):
            os.rmdir(path)


def stand_apart():
    """A server is not sent what a terminal sends, and ends when its parent was killed."""
    os.setsid()
    ctypes.CDLL(None).prctl(SIGNAL_AT_PARENTS_DEATH, signal.SIGTERM)


def wait_for(path, server, said):
    """Waits until the tree is there."""
    while not os.path.ismount(path):
        if server.poll() is not None:
            said.seek(0)
            raise NotMounted(said.read().strip() or f"the server ended with status {server.returncode}")
        time.sleep(0.01)


def unmount(path, server):
    """Unmounts, also where a process still stands in the tree, and waits for the server."""
    for words in (["-u"], ["-u", "-z"]):
        if subprocess.run(["fusermount3", *words, path], stderr=subprocess.DEVNULL, check=False).returncode == 0:
            break
    try:
        server.wait(LONGEST_SECONDS)
    except subprocess.TimeoutExpired:
        server.kill()


def interpreter():
    """A Python that has fusepy: this one, or Debian's."""
    try:
        import fusepy  # noqa: F401
    except ImportError:
        return DEBIAN_PYTHON
    return sys.executable
