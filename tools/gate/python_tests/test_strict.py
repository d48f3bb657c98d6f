"""The mount with --strict. Each answer was given by a running Linux 6.12 to the same commands."""
import errno
import os

from resctrl_sim import Machine, mounted
from mounts import Mounts, write

TWO_CACHES = Machine(domains=2, sets=64, ways=8, classes=5, rmids=12, cpus=4)
TASKS = "7 8 10 16"


class Strict(Mounts):
    def mounted(self, machine=TWO_CACHES):
        return mounted(machine, TASKS, words=["--strict"])

    def refuses(self, tree, number, path, text, status):
        self.errs(number, write, tree / path, text)
        self.assertEqual((tree / "info/last_cmd_status").read_text(), status)

    def test_texts(self):
        with self.mounted() as tree:
            (tree / "a").mkdir()
            self.refuses(tree, errno.EINVAL, "schemata", "L3:0=f; 1=f\n", "Missing '=' or non-numeric domain\n")
            self.refuses(tree, errno.EINVAL, "a/mode", "exclusive \n", "Unknown or unsupported mode\n")
            write(tree / "a/schemata", "L3:+1=+3\n")
            self.assertEqual((tree / "a/schemata").read_text(), "L3:0=ff;1=03\n")
            self.refuses(tree, errno.EINVAL, "a/cpus", "0x1\n", "Bad CPU list/mask\n")
            write(tree / "a/cpus_list", "0-3:1/2\n")
            self.assertEqual((tree / "a/cpus_list").read_text(), "0,2\n")
            self.errs(errno.EOVERFLOW, write, tree / "a/cpus", "00000000,00000001\n")
            self.errs(errno.ERANGE, write, tree / "a/cpus_list", "4\n")
            self.errs(errno.E2BIG, write, tree / "schemata", "L3:0=" + "0" * 4089 + "ff\n")
            self.errs(errno.EPERM, os.mkdir, tree / "mon_groups/mon_groups")

    def test_tasks(self):
        with self.mounted() as tree:
            (tree / "a").mkdir()
            write(tree / "a/tasks", "010\n")
            write(tree / "a/tasks", "0x10\n")
            self.assertEqual((tree / "a/tasks").read_text(), "8\n16\n")
            self.refuses(tree, errno.EINVAL, "a/tasks", "7, \n", "Task list parsing error pid \n")
            self.assertEqual((tree / "a/tasks").read_text(), "7\n8\n16\n")
            self.refuses(tree, errno.ESRCH, "a/tasks", "99\n", "No task 99\nError while processing task 99\n")

    def test_status_piles_up(self):
        with self.mounted() as tree:
            gap = "The mask 5 has non-consecutive 1-bits\n"
            self.refuses(tree, errno.EINVAL, "schemata", "L3:0=5\n", gap)
            (tree / "a").mkdir()
            self.refuses(tree, errno.ERANGE, "a/cpus_list", "9\n", gap + "Bad CPU list/mask\n")
            write(tree / "a/mode", "shareable\n")
            self.refuses(tree, errno.EINVAL, "a/schemata", "L3:2=1\n", "ok\n")
            self.refuses(tree, errno.EINVAL, "schemata", "L3:0=3\nMB:0=10\n", "Unknown or unsupported resource name 'MB'\n")

    def test_files_of_a_group_that_is_being_locked(self):
        with self.mounted() as tree:
            write(tree / "schemata", "L3:0=f0;1=f0\n")
            (tree / "a").mkdir()
            write(tree / "a/mode", "pseudo-locksetup\n")
            for file in ("tasks", "cpus", "cpus_list"):
                self.errs(errno.EACCES, (tree / "a" / file).read_text)
            self.refuses(tree, errno.EACCES, "a/tasks", "7\n", "ok\n")
            self.assertEqual((tree / "a/schemata").read_text(), "L3:uninitialized\n")
            self.assertEqual((tree / "a/size").read_text(), "L3:0=0;1=0\n")
            write(tree / "a/schemata", "L3:1=3\n")
            self.assertEqual((tree / "a/schemata").read_text(), "L3:1=3\n")
            self.errs(errno.EACCES, (tree / "a/tasks").read_text)
            self.errs(errno.EACCES, write, tree / "a/cpus", "1\n")
            self.refuses(tree, errno.EINVAL, "a/schemata", "L3:1=1\n", "Resource group is pseudo-locked\n")

    def test_region_over_4_mib(self):
        with self.mounted(Machine(sets=16384, ways=8)) as tree:
            write(tree / "schemata", "L3:0=e0\n")
            (tree / "a").mkdir()
            write(tree / "a/mode", "pseudo-locksetup\n")
            self.refuses(tree, errno.E2BIG, "a/schemata", "L3:0=1f\n", "Requested region exceeds maximum size\n")
            write(tree / "a/schemata", "L3:0=f\n")
            self.assertEqual((tree / "a/mode").read_text(), "pseudo-locked\n")

    def test_more_than_32_classes(self):
        with self.mounted(Machine(sets=1, ways=2, classes=40, rmids=64)) as tree:
            for number in range(1, 32):
                (tree / f"g{number}").mkdir()
            self.errs(errno.ENOSPC, os.mkdir, tree / "g32")
            self.assertEqual((tree / "info/last_cmd_status").read_text(), "Out of CLOSIDs\n")
