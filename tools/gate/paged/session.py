"""A shell that runs the commands of a page."""
import contextlib
import os
import re
import shutil
import signal
import subprocess

from . import TOP

COPIED = ("README.md", "CONTRIBUTING.md", "Makefile", "crates.txt", "docs", "examples", "tools", "bench")
LINKED = ("crates",)
SECONDS = 1800


class Session:
    """A shell at the top of a fresh copy, which runs one command after the other."""

    END = "end-of-a-command"

    def __init__(self, folder, bin_folder):
        for name in COPIED:
            copy = shutil.copytree if (TOP / name).is_dir() else shutil.copy2
            copy(TOP / name, folder / name)
        for name in LINKED:
            (folder / name).symlink_to(TOP / name)
        paths = {"PATH": f"{bin_folder}:{os.environ['PATH']}", "PYTHONDONTWRITEBYTECODE": "1", "LC_ALL": "C.UTF-8"}
        self.shell = subprocess.Popen(
            ["timeout", str(SECONDS), "bash", "--norc"], cwd=folder, env=os.environ | paths, text=True, encoding="utf-8",
            stdin=subprocess.PIPE, stdout=subprocess.PIPE, stderr=subprocess.STDOUT,
        )

    def run(self, command):
        """What a command shows, and its exit status; None if the shell has ended. One that goes on beside the next shows all first."""
        self.shell.stdin.write(f"{{\n{command.text}\n}} < /dev/null\necho {self.END} $?\n")
        self.shell.stdin.flush()
        goes_on = command.text.rstrip().endswith("&")
        shown, status = "", None
        for line in self.shell.stdout:
            text, end, rest = line.partition(self.END)
            # A shell that is typed into does not say on which line of its input a command fails.
            shown += re.sub(r"^bash: line \d+: ", "bash: ", text)
            status = int(rest) if end else status
            if status is not None and not (goes_on and shown != command.wanted):
                break
        return shown, status

    def close(self):
        """Ends the shell, and whatever it left running, as a mount."""
        self.shell.stdin.close()
        self.shell.wait()
        with contextlib.suppress(ProcessLookupError):
            os.killpg(self.shell.pid, signal.SIGTERM)
