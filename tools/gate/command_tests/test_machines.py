"""Curves for a machine by its name: what the planner is asked, where a folder stands in for what Linux shows of the caches."""
from pathlib import Path
import tempfile
import unittest

from installed import EXAMPLES, bikhnoun, stand_in

SKYLAKE = {"level": 3, "number_of_sets": 53248, "ways_of_associativity": 11, "coherency_line_size": 64}


def show(folder, index, **files):
    """Shows a cache as Linux does."""
    cache = Path(folder, f"index{index}")
    cache.mkdir()
    for name, value in files.items():
        (cache / name).write_text(f"{value}\n", encoding="ascii")


class Machines(unittest.TestCase):
    def asked(self, *words, **caches):
        """What a call does on a machine with these caches, and a planner that prints its words."""
        with tempfile.TemporaryDirectory() as folder:
            for name, files in caches.items():
                show(folder, name.removeprefix("index"), **files)
            return bikhnoun("plan", "curve", *words, data=b"", programs=stand_in(folder, 'echo "$@"', "resctrl_plan") | {"BIKHNOUN_CACHES": folder})

    def is_refused(self, cause, *words, **caches):
        done = self.asked(*words, **caches)
        self.assertEqual((done.returncode, done.stdout), (2, b""))
        self.assertIn(cause, done.stderr.decode())

    def test_here(self):
        done = self.asked("--machine", "here", index0={"level": 1, "number_of_sets": 64, "ways_of_associativity": 8}, index3=SKYLAKE)
        self.assertEqual((done.returncode, done.stdout, done.stderr), (0, b"curve 53248 11\n", b"bikhnoun plan: here: 53248 sets of 11 ways\n"))

    def test_the_level_counts_and_not_the_number_of_the_folder(self):
        done = self.asked("--machine=here", "-", index2=SKYLAKE | {"number_of_sets": 2048}, index3={"level": 4, "number_of_sets": 1})
        self.assertEqual(done.stdout, b"curve 2048 11\n")

    def test_a_machine_that_shows_too_little(self):
        self.is_refused("shows no L3 cache", "--machine", "here", index2={"level": 2, "number_of_sets": 1024})
        self.is_refused("shows no L3 cache", "--machine", "here")
        self.is_refused("does not show how many sets and ways", "--machine", "here", index3={"level": 3})
        self.is_refused("have 128 bytes", "--machine", "here", index3=SKYLAKE | {"coherency_line_size": 128})

    def test_names(self):
        for name, sets, ways in (("skylake_sp", 2048, 11), ("rome", 16384, 16), ("milan_x", 98304, 16)):
            self.assertEqual(self.asked("--machine", name).stdout, f"curve {sets} {ways}\n".encode())
        self.is_refused("there is no machine 'skylake'; is it 'skylake_sp'?", "--machine", "skylake")
        self.is_refused("there are here, bergamo, ", "--machine", "xyz")

    def test_each_example_has_a_name(self):
        for path in (EXAMPLES / "machines").glob("*.script"):
            self.assertEqual(self.asked("--machine", path.stem).returncode, 0, msg=path)

    def test_sets_and_ways_as_before(self):
        self.assertEqual(self.asked("4", "2").stdout, b"curve 4 2\n")
