"""What pytest shows of a test that failed on a mounted tree."""
import os
import subprocess
import sys

from resctrl_sim.mounting import PACKAGES
from mounts import Mounts

TESTS = """
from resctrl_sim import Machine
import pytest

@pytest.fixture
def web(resctrl):
    (resctrl / "web").mkdir()
    return resctrl / "web"

@pytest.mark.resctrl(machine=Machine(ways=4), tasks="1000")
def test_fails(web):
    (web / "schemata").write_text("L3:0=3\\n")
    assert (web / "mode").read_text() == "exclusive\\n"

def test_passes(web):
    pass

def test_without_a_tree():
    assert False
"""
SHOWN = """\
machine ways=4
tasks 1000
phase
thread
mkdir /web
write /web/schemata L3:0=3
read /web/mode
"""


def python_with_pytest():
    """An interpreter that has pytest, or None."""
    pythons = (sys.executable, "/usr/bin/python3")
    has = (one for one in pythons if subprocess.run([one, "-c", "import pytest"], stderr=subprocess.DEVNULL, check=False).returncode == 0)
    return next(has, None)


class Plugin(Mounts):
    def test_sections_of_a_failed_test(self):
        python = python_with_pytest()
        if not python:
            self.skipTest("pytest is not here (Debian: python3-pytest)")
        (self.folder / "conftest.py").write_text('pytest_plugins = ["resctrl_sim.pytest_plugin"]\n')
        (self.folder / "test_tool.py").write_text(TESTS)
        path = {"PYTHONPATH": PACKAGES, "PYTHONDONTWRITEBYTECODE": "1"}
        command = [python, "-m", "pytest", "-q", "-p", "no:cacheprovider"]
        done = subprocess.run(command, cwd=self.folder, env=os.environ | path, capture_output=True, text=True, check=False)
        self.assertIn("2 failed, 1 passed", done.stdout)
        # The titles stand once: of the tree of the one test that failed on it.
        self.assertEqual([done.stdout.count(f" resctrl {what} -") for what in ("script", "report")], [1, 1])
        self.assertIn(SHOWN, done.stdout)
        self.assertIn("\n|shareable\n", done.stdout)
