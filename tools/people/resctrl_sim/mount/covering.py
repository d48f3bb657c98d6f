"""Files and folders that are shown in place of others, in a mount namespace."""
import ctypes
import os
from pathlib import Path
import subprocess

from .words import Stopped

LIBC = ctypes.CDLL(None, use_errno=True)
NEW_MOUNTS = 0x20000
BIND = 0x1000


def enter_namespace():
    """What is mounted from here on is seen by this process and by those that it starts, and is gone with them."""
    if LIBC.unshare(NEW_MOUNTS) != 0:
        raise Stopped("a mount namespace of its own is refused here")
    mount("--make-rprivate", "/")


def mount(*words, command="mount"):
    done = subprocess.run([command, *map(str, words)], stderr=subprocess.PIPE, text=True, check=False)
    if done.returncode != 0:
        raise Stopped(done.stderr.strip())


def bind(file, place):
    """Shows a file at a place, and says whether that was done."""
    return LIBC.mount(os.fsencode(file), os.fsencode(place), None, BIND, None) == 0


def lines_of(name):
    """The lines of a file of /proc."""
    return Path("/proc", name).read_text().splitlines()


def file_of(path, lines):
    """A new file of these lines."""
    path.write_text("".join(line + "\n" for line in lines))
    return path


def cover(file, name):
    """Shows a file in place of one of /proc. `mounts` is a link there, and is covered itself and not what it leads to."""
    link = os.open(f"/proc/{name}", os.O_PATH | os.O_NOFOLLOW)
    # The command `mount` would follow the link.
    if not bind(file, f"/proc/self/fd/{link}"):
        raise Stopped(f"/proc/{name} cannot be covered: {os.strerror(ctypes.get_errno())}")
    os.close(link)
