"""Records of mounts: made once, and gone on from, also where the disk is full."""
import errno
import os
import subprocess

from resctrl_sim import NotMounted, mounted, play
from mounts import MACHINE, TASKS, Mounts


class Records(Mounts):
    def test_record_is_never_written_over(self):
        record = self.folder / "my.script"
        with mounted(MACHINE, TASKS, words=["--record", record]) as tree:
            (tree / "p0").mkdir()
            (tree / "p0/schemata").write_text("L3:0=3\n")
            self.assertEqual(record.read_text(), (tree / ".sim/script").read_text())
        before = record.read_text()
        with self.assertRaisesRegex(NotMounted, f"{record} is there already; --resume {record} goes on from it"):
            with mounted(MACHINE, TASKS, words=["--record", record]):
                pass
        self.assertEqual(record.read_text(), before)

    def test_force(self):
        record = self.folder / "my.script"
        record.write_text("machine ways=3\n# of yesterday\n")
        with self.assertRaisesRegex(NotMounted, "--force goes with --record"), mounted(words=["--force"]):
            pass
        with mounted(MACHINE, words=["--force", "--record", record]) as tree:
            (tree / "p0").mkdir()
        self.assertEqual(record.read_text(), f"{MACHINE.line}\nphase\nthread\nmkdir /p0\n")
        with self.assertRaisesRegex(NotMounted, "bad machine line"), mounted("ways=0", words=["--force", "--record", record]):
            pass
        self.assertIn("mkdir /p0", record.read_text())

    def test_full_disk(self):
        if os.geteuid() != 0:
            self.skipTest("only root has a small disk")
        # Two pages: one is for the record, which the tasks nearly fill, and one for another file.
        subprocess.run(["mount", "-t", "tmpfs", "-o", "size=8k", "small", self.folder], check=True)
        self.addCleanup(subprocess.run, ["umount", "--lazy", self.folder], check=True)
        record, other = self.folder / "my.script", self.folder / "other"
        other.write_text("another file\n")
        tasks = " ".join(map(str, range(1000, 1800)))
        with mounted(MACHINE, tasks, words=["--record", record]) as tree:
            made = self.fill(tree)
            self.assertFalse((tree / f"a{made}").exists())
            self.errs(errno.ENOSPC, (tree / "schemata").read_text)
            self.errs(errno.ENOSPC, (tree / ".sim/access").write_text, "tick\n")
            self.assertEqual((tree / "info/last_cmd_status").read_text(), "not recorded, and so not done: No space left on device\n")
            self.assertEqual(record.read_text(), (tree / ".sim/script").read_text())
            self.assertEqual(self.ops(tree), [f"mkdir /a{number}" for number in range(made)])
            other.unlink()
            (tree / "after").mkdir()
            self.assertEqual((tree / "info/last_cmd_status").read_text(), "ok\n")
            self.assertEqual(self.ops(tree)[made:], ["mkdir /after"])
            self.assertEqual(record.read_text(), (tree / ".sim/script").read_text())
        # The disk is full again, by the record's own second page: there is no room for one to go on from.
        with self.assertRaisesRegex(NotMounted, f"{record}: No space left on device"), mounted(words=["--resume", record]):
            pass
        self.assertEqual(sorted(os.listdir(self.folder)), ["my.script"])
        groups = [group.path for group in play(record.read_text()).groups]
        self.assertEqual(groups, ["/", *(f"/a{number}" for number in range(made)), "/after"])

    def fill(self, tree):
        """Makes groups until the disk is full, and gives how many there are."""
        for number in range(10):
            try:
                (tree / f"a{number}").mkdir()
            except OSError as why:
                self.assertEqual(why.errno, errno.ENOSPC)
                return number
        return self.fail("the disk is never full")

    def test_resume(self):
        record = self.folder / "my.script"
        with mounted(MACHINE, TASKS, words=["--record", record]) as tree:
            (tree / "p0").mkdir()
            (tree / "p0/schemata").write_text("L3:0=3\n")
        with mounted(words=["--resume", record]) as tree:
            self.assertEqual((tree / "p0/schemata").read_text(), "L3:0=003;1=fff\n")
            (tree / "p0/tasks").write_text("1000\n")
        self.assertEqual(record.read_text().splitlines()[-1], "write /p0/tasks 1000")
        self.assertEqual(len(play(record.read_text()).commands), 4)

    def test_resume_of_any_script(self):
        script = self.folder / "races.script"
        script.write_text("machine\nphase\norder 0 0 0 1 1 1 1 1\nthread\nmkdir /a\nthread\nmkdir /b\n")
        with mounted(words=["--resume", script]) as tree:
            self.assertEqual({name.name for name in tree.iterdir()} & {"a", "b"}, {"a", "b"})
        self.assertEqual(script.read_text().splitlines()[-3:], ["phase", "thread", "list /"])

    def test_what_cannot_be_resumed(self):
        script = self.folder / "none.script"
        script.write_text("machine colour=1\n")
        for words, why in [
            (["--resume", script], "none.script: line 1: bad machine line: there is no key `colour`"),
            (["--resume", self.folder / "no"], f"{self.folder / 'no'}: No such file or directory"),
        ]:
            with self.assertRaisesRegex(NotMounted, why), mounted(words=words):
                pass
        with self.assertRaisesRegex(NotMounted, "--machine and --tasks do not go with --resume"), mounted(MACHINE, words=["--resume", script]):
            pass
        self.assertEqual(script.read_text(), "machine colour=1\n")
