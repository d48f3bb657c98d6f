"""What the tests of the mounted tree have in common. They are left out, and that is said, where nothing can be mounted."""
import errno
import os
from pathlib import Path
import shutil
import subprocess
import sys
import tempfile
import unittest

from resctrl_sim import Machine
from resctrl_sim.mounting import interpreter

MACHINE = Machine(domains=2, sets=2048, ways=12, cpus=4)
TASKS = "1000-1003"


def why_not():
    """Why nothing can be mounted here, or None."""
    if not os.access("/dev/fuse", os.R_OK | os.W_OK):
        return "/dev/fuse cannot be used"
    if not shutil.which("fusermount3"):
        return "fusermount3 is not here (Debian: fuse3)"
    if subprocess.run([interpreter(), "-c", "import fusepy"], stderr=subprocess.DEVNULL, check=False).returncode != 0:
        return "fusepy is not here (Debian: python3-fusepy)"
    return None


WHY_NOT = why_not()
if WHY_NOT:
    print(f"The mount is not tested: {WHY_NOT}.", file=sys.stderr)


class Mounts(unittest.TestCase):
    """A folder for each test."""

    def setUp(self):
        if WHY_NOT:
            self.skipTest(WHY_NOT)
        folder = tempfile.TemporaryDirectory()
        self.addCleanup(folder.cleanup)
        self.folder = Path(folder.name)

    def errs(self, number, call, *given):
        """A call fails with this error."""
        with self.assertRaises(OSError) as fault:
            call(*given)
        self.assertEqual(errno.errorcode[fault.exception.errno], errno.errorcode[number])

    def ops(self, tree):
        """The commands that change something, of the script so far."""
        lines = (tree / ".sim/script").read_text().splitlines()
        return [line for line in lines[lines.index("thread") + 1 :] if not line.startswith(("read ", "list "))]


def write(path, text):
    """One call that writes a text."""
    with open(path, "wb", buffering=0) as file:
        file.write(text.encode())
