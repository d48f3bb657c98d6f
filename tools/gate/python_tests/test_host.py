"""The machine that is nearest to a host's, of sysfs trees that are made here."""
from pathlib import Path
import tempfile
import unittest

from resctrl_sim.host import Host, Nearest, machine_keys


class Hosts(unittest.TestCase):
    def host(self, online, caches, ways=11, sets=2048):
        """A host of these CPUs, whose L3 caches have these numbers and CPUs."""
        folder = tempfile.TemporaryDirectory()
        self.addCleanup(folder.cleanup)
        root = Path(folder.name)
        (root / "online").write_text(online + "\n")
        self.cache(root / "cpu0/cache/index0", level=1, id=0, shared_cpu_list=0, ways_of_associativity=8, number_of_sets=64)
        for number, cpus in caches.items():
            for cpu in cpus:
                shared = ",".join(map(str, cpus))
                self.cache(
                    root / f"cpu{cpu}/cache/index3",
                    level=3, id=number, shared_cpu_list=shared, ways_of_associativity=ways, number_of_sets=sets,
                )
        return Host.read(root)

    def cache(self, folder, **files):
        folder.mkdir(parents=True)
        for name, value in files.items():
            (folder / name).write_text(f"{value}\n")

    def nearest(self, host, **given):
        found = Nearest(host, given)
        return found.keys, found.remarks

    def test_one_that_a_machine_can_be(self):
        host = self.host("0-3", {0: (0, 1), 1: (2, 3)})
        self.assertEqual(self.nearest(host), ({"domains": 2, "ways": 11, "cpus": 4, "sets": 2048}, []))

    def test_sets_that_are_no_power_of_two(self):
        for sets, nearest in ((53248, 65536), (49152, 65536), (49151, 32768), (3, 4), (2049, 2048)):
            keys, remarks = self.nearest(self.host("0", {0: (0,)}, sets=sets))
            self.assertEqual((keys["sets"], remarks), (nearest, [f"sets={nearest} and not {sets}: sets are a power of two"]))

    def test_more_than_a_machine_has(self):
        host = self.host("0-65", {number: range(6 * number, 6 * number + 6) for number in range(11)}, ways=16, sets=65536)
        keys, remarks = self.nearest(host)
        # Eight caches of 16 ways have 2^20 lines with 2^13 sets.
        self.assertEqual(keys, {"domains": 8, "ways": 16, "cpus": 64, "sets": 8192})
        self.assertEqual(
            remarks,
            [
                "domains=8 and not 11: a machine has 8 domains at most",
                "cpus=64 and not 66: a machine has 64 cpus at most",
                "sets=8192 and not 65536: caches of a machine have 1048576 lines at most",
            ],
        )

    def test_ways_past_the_last(self):
        keys, remarks = self.nearest(self.host("0", {0: (0,)}, ways=48))
        self.assertEqual((keys["ways"], remarks), (32, ["ways=32 and not 48: a machine has 32 ways at most"]))

    def test_cpus_that_lie_otherwise(self):
        keys, remarks = self.nearest(self.host("0-3", {0: (0, 2), 1: (1, 3)}))
        self.assertEqual((keys["domains"], keys["cpus"]), (2, 4))
        self.assertEqual(remarks, ["CPU 2 has L3 0 on the host, and domain 1 here"])

    def test_numbers_that_are_not_those_of_domains(self):
        _, remarks = self.nearest(self.host("0-3", {0: (0, 1), 4: (2, 3)}))
        self.assertEqual(remarks, ["the L3 caches have the numbers 0, 4 on the host, and here those from 0"])

    def test_offline_cpus(self):
        keys, remarks = self.nearest(self.host("0,2", {0: (0, 2)}))
        self.assertEqual((keys["cpus"], remarks), (3, ["CPU 1 is offline on the host, and here every CPU is there"]))

    def test_no_l3(self):
        keys, remarks = self.nearest(self.host("0-1", {}))
        self.assertEqual((keys, remarks), ({"domains": 1, "ways": 8, "cpus": 2, "sets": 64}, ["sysfs tells no L3 of this host"]))

    def test_keys_that_are_given(self):
        host = self.host("0-3", {0: (0, 1, 2, 3)}, sets=65536)
        self.assertEqual(machine_keys("host", host), ("domains=1 ways=11 cpus=4 sets=65536", []))
        keys, remarks = machine_keys("host ways=20 min=2", host)
        self.assertEqual(keys, "domains=1 cpus=4 sets=32768 ways=20 min=2")
        self.assertEqual(remarks, ["sets=32768 and not 65536: caches of a machine have 1048576 lines at most"])
        # What is given stays, also where it is more than a machine can have: the program says so.
        self.assertEqual(machine_keys("host sets=3 domains=9", host)[0], "ways=11 cpus=9 sets=3 domains=9")
        self.assertEqual(machine_keys("host ways=x", host), ("ways=x", []))


if __name__ == "__main__":
    unittest.main()
