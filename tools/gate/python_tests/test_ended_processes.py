"""Processes that end, and later ones with their ids, of a /proc that is made here."""
from pathlib import Path
import shutil
import tempfile
import unittest

from resctrl_sim.mount.processes import Processes


class Script:
    """A recording that takes everything."""

    def __init__(self):
        self.head, self.ops, self.tasks = [], [], [(1000, 1003)]

    def declared(self):
        return self.tasks

    def declare(self, tasks):
        self.tasks += [(task, task) for task in tasks]

    def keep(self, ops):
        self.ops += ops


class Ends(unittest.TestCase):
    def setUp(self):
        folder = tempfile.TemporaryDirectory()
        self.addCleanup(folder.cleanup)
        self.proc = Path(folder.name)
        self.script = Script()
        self.processes = Processes(self.script, self.proc)

    def begin(self, task, when):
        (self.proc / str(task)).mkdir()
        (self.proc / str(task) / "stat").write_text(f"{task} (a ) b) S {' '.join(['0'] * 18)} {when} 7 8\n")

    def end(self, task):
        shutil.rmtree(self.proc / str(task))

    def move(self, text):
        """Writes a text for `tasks`, and gives the id at which it ends, or None."""
        self.processes.meet("/a/tasks", text.encode())
        ended = self.processes.first_ended("/a/tasks", text.encode())
        return ended and int(ended[0])

    def test_one_that_ends(self):
        self.begin(7, 100)
        self.begin(8, 100)
        self.assertIsNone(self.move("7,8\n"))
        self.assertEqual(self.script.tasks, [(1000, 1003), (7, 7), (8, 8)])
        self.end(7)
        self.assertEqual(self.processes.shown("/a/tasks", "7\n8\n1000\n"), "8\n1000\n")
        self.assertEqual(self.processes.shown("/a/cpus", "7\n"), "7\n")
        self.assertEqual(self.move("8,7\n"), 7)

    def test_an_id_that_is_used_again(self):
        self.begin(7, 100)
        self.move("7\n")
        self.end(7)
        self.begin(7, 200)
        # The later process was never moved here, until it is.
        self.assertEqual(self.processes.shown("/a/tasks", "7\n"), "")
        self.assertIsNone(self.move("7\n"))
        self.assertEqual(self.processes.shown("/a/tasks", "7\n"), "7\n")

    def test_a_declared_task_is_no_process(self):
        self.assertIsNone(self.move("1000\n"))
        self.assertEqual(self.processes.shown("/a/tasks", "1000\n"), "1000\n")

    def test_a_mode_lets_go(self):
        for task in (7, 8, 9):
            self.begin(task, 100)
        self.move("7,8,9\n")
        self.end(7)
        self.end(9)
        self.processes.meet("/a/mode", b"pseudo-locksetup\n")
        self.processes.meet("/a/mode", b"pseudo-locksetup\n")
        self.assertEqual(self.script.ops, ["write /tasks 7,9"])


if __name__ == "__main__":
    unittest.main()
