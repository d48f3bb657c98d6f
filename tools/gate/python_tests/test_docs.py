"""What docs/MOUNT.md shows of Python, of pytest and of a job in a CI is run as it stands there."""
import os
from pathlib import Path
import re
import shutil
import subprocess
import sys

from resctrl_sim import Program
from resctrl_sim.mounting import PACKAGES
from mounts import Mounts
from test_pytest_plugin import python_with_pytest

REPOSITORY = Path(__file__).resolve().parents[3]
PAGE = REPOSITORY / "docs" / "MOUNT.md"


def blocks(language):
    """The blocks of code of the page in this language."""
    return re.findall(rf"^```{language}\n(.*?)^```", PAGE.read_text(), re.M | re.S)


def commands(job):
    """The commands of a job: what stands after `run:`, on its line or folded below it."""
    return [" ".join(one.removeprefix(">").split()) for one in re.findall(r"^ +- run: (.*(?:\n {10}.*)*)", job, re.M)]


class Page(Mounts):
    def run_in(self, folder, *command):
        path = {"PYTHONPATH": PACKAGES, "PYTHONDONTWRITEBYTECODE": "1"}
        return subprocess.run(command, cwd=folder, env=os.environ | path, capture_output=True, text=True, check=False)

    def test_python(self):
        plays, *_ = blocks("python")
        wanted = re.findall(r"# (.*)$", plays, re.M)
        done = self.run_in(self.folder, sys.executable, "-c", plays)
        self.assertEqual((done.stdout.split(), done.stderr), (wanted, ""))

    def test_pytest(self):
        python = python_with_pytest()
        if not python:
            self.skipTest("pytest is not here (Debian: python3-pytest)")
        _, conftest, tests = blocks("python")
        (self.folder / "conftest.py").write_text(conftest)
        (self.folder / "test_tool.py").write_text(tests)
        done = self.run_in(self.folder, python, "-m", "pytest", "-q", "-p", "no:cacheprovider")
        self.assertIn("2 passed", done.stdout)

    def test_job(self):
        if os.geteuid() != 0:
            self.skipTest("the job needs root")
        (job,) = blocks("yaml")
        install, *steps = commands(job)
        self.assertIn("apt-get install", install)
        self.assertEqual(len(steps), 2)
        (self.folder / "ci").mkdir()
        (self.folder / "tests").mkdir()
        shutil.copy(Program().path, self.folder / "ci/resctrl_sim")
        (self.folder / "ci/tools").symlink_to(REPOSITORY / "tools")
        for tool, status in [("mkdir /sys/fs/resctrl/web && echo $$ > /sys/fs/resctrl/web/tasks", 0), ("echo L3:0=5 > /sys/fs/resctrl/schemata", 1)]:
            (self.folder / "tests/on_resctrl.sh").write_text(tool + "\n")
            mount, replay = (self.run_in(self.folder, "sh", "-c", step.removeprefix("sudo ")) for step in steps)
            self.assertEqual(bool(mount.returncode), bool(status), msg=mount.stderr)
            self.assertEqual(replay.returncode, 0)
            self.assertIn("refused 1" if status else "refused 0", replay.stdout)
            (self.folder / "resctrl.script").unlink()
