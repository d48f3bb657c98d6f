"""A command in a mount namespace of its own, where the tree stands as on a machine that has resctrl.

`/proc/mounts` is covered itself, though it is a link into each process's own folder. A file can be mounted on a link, and `/proc` stays as
it is for whoever reads processes there.
"""
import os
from pathlib import Path
import signal
import subprocess
import tempfile

from ..mounting import NotMounted, mounted
from . import mountinfo
from .covering import cover, enter_namespace, file_of, lines_of, mount
from .words import SERVER, Stopped, warn

TREE = "/sys/fs/resctrl"
# What tools look for on a machine with cache allocation and cache monitoring.
FLAGS = ("rdt_a", "cat_l3", "cqm", "cqm_llc", "cqm_occup_llc")
KIND = "nodev\tresctrl"

CANNOT_START = 127


def run_within(given):
    """Runs the command, and gives its status: 128 and the signal's number where a signal ended it."""
    if os.geteuid() != 0:
        raise Stopped("--run needs root, since it mounts at /sys/fs/resctrl in a namespace of its own")
    enter_namespace()
    try:
        with tempfile.TemporaryDirectory() as folder, mounted(given.machine, given.tasks, words=words_of_server(given)) as tree:
            kept = []
            try:
                place(Path(folder), tree)
                kept = [mountinfo.cover_program(Path(folder), program) for program in mountinfo.READERS]
                return run(given.run, Path(folder))
            finally:
                for path in filter(None, [TREE, *kept]):
                    subprocess.run(["umount", "--lazy", path], stderr=subprocess.DEVNULL, check=False)
    except NotMounted as why:
        # The server names itself, which may be another name than this one was called by.
        raise Stopped(str(why).removeprefix(f"{SERVER}: ")) from why


def words_of_server(given):
    """What the server is told besides machine and tasks."""
    words = [word for name in ("program", "record", "resume") if (value := getattr(given, name)) for word in (f"--{name}", value)]
    return words + [f"--{name}" for name in ("force", "pids", "strict") if getattr(given, name)]


def place(folder, tree):
    """Puts the tree at /sys/fs/resctrl, and what tools look at into /proc."""
    mounts = lines_of("mounts")
    if not os.path.isdir(TREE):
        make_room(folder)
    mount("--bind", tree, TREE)
    others = [line for line in mounts if line.split()[1] not in (TREE, str(tree))]
    kinds = [line for line in lines_of("filesystems") if line != KIND]
    shown = {
        "mounts": [*others, f"resctrl {TREE} resctrl rw,relatime 0 0"],
        "filesystems": [*kinds, KIND],
        "cpuinfo": [with_flags(line) if line.startswith("flags") else line for line in lines_of("cpuinfo")],
    }
    for name, lines in shown.items():
        cover(file_of(folder / name, lines), name)
    mountinfo.prepare(folder, TREE)


def with_flags(line):
    """A line of a processor's flags, with those of cache allocation and cache monitoring."""
    return " ".join([line, *(flag for flag in FLAGS if flag not in line.split())])


def make_room(folder):
    """Makes the directory where a kernel without resctrl has none: /sys/fs as it is, with one more."""
    kept = folder / "fs"
    kept.mkdir()
    mount("--rbind", "/sys/fs", kept)
    mount("-t", "tmpfs", "resctrl_sim", "/sys/fs")
    for name in os.listdir(kept):
        os.mkdir(f"/sys/fs/{name}")
        mount("--rbind", kept / name, f"/sys/fs/{name}")
    mount("--lazy", kept, command="umount")
    os.mkdir(TREE)


def run(command, folder):
    """The status of a command, and that of a shell where it cannot be started. What is sent to end it, it gets."""
    try:
        child = subprocess.Popen(command, preexec_fn=lambda: mountinfo.cover_own(folder))
    except OSError as why:
        warn(f"{command[0]}: {why.strerror}")
        return CANNOT_START
    signal.signal(signal.SIGINT, lambda *_: None)
    signal.signal(signal.SIGTERM, lambda *_: child.terminate())
    status = child.wait()
    return 128 - status if status < 0 else status
