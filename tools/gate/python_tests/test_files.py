"""Files and directories of the mounted tree, as tools meet them."""
import errno
import os
import subprocess
import time

from resctrl_sim import Checker, mounted
from mounts import MACHINE, TASKS, Mounts


class Files(Mounts):
    def test_file_held_open_while_its_group_is_removed(self):
        with mounted(MACHINE, TASKS) as tree:
            (tree / "p0").mkdir()
            schemata = os.open(tree / "p0/schemata", os.O_RDWR)
            directory = os.open(tree / "p0", os.O_RDONLY)
            (tree / "p0").rmdir()
            self.errs(errno.ENODEV, os.read, schemata, 100)
            self.errs(errno.ENODEV, os.write, schemata, b"L3:0=3\n")
            self.errs(errno.ENOENT, os.listdir, directory)
            (tree / "p0").mkdir()
            self.errs(errno.ENODEV, os.pwrite, schemata, b"L3:0=3\n", 0)
            os.close(schemata)
            os.close(directory)
            self.assertEqual(self.ops(tree), ["mkdir /p0", "rmdir /p0", "mkdir /p0"])

    def test_modes_owners_and_times(self):
        with mounted(MACHINE, TASKS) as tree:
            before = time.time()
            os.mkdir(tree / "p0", 0o750)
            self.assertEqual((tree / "p0").stat().st_mode & 0o777, 0o750 & ~umask())
            self.assertGreaterEqual(tree.stat().st_mtime, before)
            file = tree / "p0/schemata"
            file.chmod(0o444)
            self.errs(errno.EACCES, os.open, file, os.O_WRONLY)
            file.chmod(0o640)
            os.chown(file, os.getuid(), 5)
            self.assertEqual((file.stat().st_mode & 0o777, file.stat().st_gid), (0o640, 5))
            os.utime(file, ns=(10**18, 2 * 10**18))
            self.assertEqual((file.stat().st_atime_ns, file.stat().st_mtime_ns), (10**18, 2 * 10**18))
            subprocess.run(["touch", "-m", file], check=True)
            self.assertEqual(file.stat().st_atime_ns, 10**18)
            self.assertGreaterEqual(file.stat().st_mtime, before)
            os.utime(file, ns=(0, 0))
            file.write_text("L3:0=3\n")
            self.assertGreaterEqual(file.stat().st_mtime, before)
            self.errs(errno.ENOENT, os.chmod, tree / "p1", 0o700)
            (tree / "p0").rmdir()
            (tree / "p0").mkdir()
            self.assertEqual(file.stat().st_mode & 0o777, 0o644)

    def test_name_lengths(self):
        with mounted(MACHINE) as tree:
            self.assertEqual(os.statvfs(tree).f_namemax, 255)
            (tree / ("n" * 255)).mkdir()
            self.errs(errno.ENAMETOOLONG, os.mkdir, tree / ("n" * 256))

    def test_accesses(self):
        with mounted(MACHINE, TASKS) as tree:
            (tree / ".sim/access").write_text("sweep 1000 0 0 100 64\n")
            self.assertEqual((tree / "mon_data/mon_L3_00/llc_occupancy").read_text(), "6400\n")
            self.refuses(tree, "access 1 0 0\n", "access 1 0 0: unknown task: ")
            self.refuses(tree, "sweep 1000 0 0 100 64\naccess 1000 9 0\n", "access 1000 9 0: bad argument: there is no CPU 9; ")
            self.refuses(tree, "acess 1000 0 0\n", "acess is none of access, sweep, touch, flush, clflush, tick\n")
            self.assertEqual((tree / "mon_data/mon_L3_00/llc_occupancy").read_text(), "6400\n")
            self.assertEqual(self.ops(tree), ["sweep 1000 0 0 100 64"])
            script, journal = ((tree / ".sim" / name).read_text() for name in ("script", "journal"))
            self.assertTrue(journal.startswith(script + "journal 1\n"))
            self.assertEqual(Checker().check(journal), "yes")

    def refuses(self, tree, lines, cause):
        """Lines for `.sim/access` are refused, and `last_cmd_status` tells why until the next command."""
        self.errs(errno.EINVAL, (tree / ".sim/access").write_text, lines)
        self.assertTrue((tree / "info/last_cmd_status").read_text().startswith(cause))


def umask():
    mask = os.umask(0)
    os.umask(mask)
    return mask
