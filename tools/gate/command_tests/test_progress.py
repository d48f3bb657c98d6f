"""The line of progress and colour: on a terminal, and nowhere else."""
import io
import os
import pty
import re
import subprocess
import tempfile
import time
import unittest
from unittest import mock

from bikhnoun import progress
from installed import EXAMPLES, PATH, bikhnoun, command, stand_in

SCRIPT = EXAMPLES / "isolated_tenant.script"
SLOW = "head -c 100000 > /dev/null; sleep 3.2; cat > /dev/null; echo done"


def on_terminal(words, programs, stdin=None):
    """What a call shows on a terminal, which both its output streams are, and its exit status."""
    ours, theirs = pty.openpty()
    environment = {"PATH": PATH, "TERM": "xterm", "PYTHONDONTWRITEBYTECODE": "1"} | programs
    worker = subprocess.Popen([command(), *words], env=environment, stdin=stdin, stdout=theirs, stderr=theirs)
    os.close(theirs)
    shown, ends = b"", time.time() + 30
    while time.time() < ends:
        try:
            part = os.read(ours, 4096)
        except OSError:
            break
        if not part:
            break
        shown += part
    os.close(ours)
    return shown.decode(), worker.wait()


class Terminal(io.StringIO):
    """Standard error, as a terminal."""

    def isatty(self):
        return True


class Lines(unittest.TestCase):
    def setUp(self):
        folder = tempfile.TemporaryDirectory()
        self.addCleanup(folder.cleanup)
        self.programs = stand_in(folder.name, SLOW) | stand_in(folder.name, SLOW, "resctrl_plan")
        self.big = f"{folder.name}/big"
        with open(self.big, "wb") as file:
            file.write(b"#" * 400000)

    def test_nothing_where_there_is_no_terminal(self):
        done = bikhnoun("play", self.big, programs=self.programs)
        self.assertEqual((done.returncode, done.stdout, done.stderr), (0, b"done\n", b""))

    def test_the_time_that_is_left(self):
        shown, status = on_terminal(["plan", "curve", "1", "1", self.big], self.programs)
        self.assertEqual(status, 0)
        # A quarter is read, or what a pipe holds more.
        self.assertRegex(shown, r"\r\x1b\[Kcounting: 0 of 0 MB read, \d s, [234]\d %, about \d+ s left")
        # The line is taken away before what the program writes.
        self.assertTrue(shown.endswith("\r\x1b[Kdone\r\n"), msg=repr(shown))

    def test_what_is_left_after_the_input_was_read(self):
        sparse = f"{self.big}.sparse"
        with open(sparse, "wb") as file:
            file.truncate(1100 << 20)
        shown, _ = on_terminal(["play", sparse], stand_in(os.path.dirname(sparse), "head -c 1000 > /dev/null; sleep 3; echo done"))
        self.assertRegex(shown, r"\r\x1b\[Kplaying: 0 of 1100 MB read, \d s, [3-6]\d %, about [2-4] s left")

    def test_tools_have_the_line_too(self):
        programs = self.programs | {"NO_COLOR": "1"}
        shown, _ = on_terminal(["explain", str(SCRIPT)], programs)
        self.assertRegex(shown, r"\r\x1b\[Kplaying: \d s")

    def test_work_of_a_tool_itself_has_the_line_too(self):
        ends = time.time() + 20
        with mock.patch.multiple(progress, FIRST=0, NEXT=0.01), mock.patch("sys.stderr", Terminal()) as terminal:
            with progress.shown("looking where"):
                while not terminal.getvalue() and time.time() < ends:
                    time.sleep(0.01)
        self.assertRegex(terminal.getvalue(), r"^\r\x1b\[Klooking where: 1 s")
        self.assertTrue(terminal.getvalue().endswith(progress.CLEAR))

    def test_colour_is_for_terminals(self):
        shown, status = on_terminal(["play", "/not_there"], {})
        self.assertEqual(status, 3)
        self.assertTrue(shown.startswith("\x1b[1;31mbikhnoun play:\x1b[0m /not_there: "), msg=repr(shown))
        plain, _ = on_terminal(["play", "/not_there"], {"NO_COLOR": "1"})
        self.assertTrue(plain.startswith("bikhnoun play: "))
        self.assertNotIn(b"\x1b", bikhnoun("play", "/not_there").stderr)
        self.assertFalse(re.search(rb"\x1b", bikhnoun("--help").stdout))
