"""Texts that are written to the mounted tree, and the tasks that they name."""
import errno
import os
import subprocess

from resctrl_sim import mounted, play
from mounts import MACHINE, TASKS, Mounts, write


class Texts(Mounts):
    def test_comma_after_a_cpu_mask(self):
        with mounted(MACHINE) as tree:
            (tree / "p0").mkdir()
            (tree / "p0/cpus").write_text("0000000c,\n")
            self.assertEqual((tree / "p0/cpus").read_text(), "c\n")
            self.assertEqual(self.ops(tree)[-1], "write /p0/cpus 0000000c")
            self.errs(errno.EINVAL, (tree / "p0/cpus_list").write_text, "2,,\n")

    def test_texts_that_no_script_holds(self):
        with mounted(MACHINE) as tree:
            status = tree / "info/last_cmd_status"
            for text, number, cause in [
                ("L3:" + "0" * 4094 + "\n", errno.E2BIG, "text has more than 4096 bytes\n"),
                ("L3:0=\x01\n", errno.EINVAL, "text has a byte that is not printed\n"),
            ]:
                self.errs(number, write, tree / "schemata", text)
                self.assertEqual(status.read_text(), cause)
            write(tree / "schemata", "L3:0=" + "0" * 4089 + "ff\n")
            self.assertEqual(status.read_text(), "ok\n")
            self.assertEqual(len(self.ops(tree)), 1)

    def test_pieces(self):
        with mounted(MACHINE) as tree, open(tree / "schemata", "wb", buffering=0) as file:
            file.write(b"L3:0=3f")
            file.write(b";1=3f\n")
            self.assertEqual(self.ops(tree), ["write /schemata L3:0=3f;1=3f"])

    def test_strict(self):
        with mounted(MACHINE, TASKS, words=["--strict"]) as tree:
            write(tree / "schemata", "L3:0=3\n")
            for name, text in [("schemata", "L3:0=f"), ("mode", "exclusive")]:
                self.errs(errno.EINVAL, write, tree / name, text)
            self.assertEqual((tree / "info/last_cmd_status").read_text(), "ok\n")
            (tree / "p0").mkdir()
            write(tree / "p0/cpus", "f")
            for between in (lambda: None, (tree / "mode").read_text):
                with open(tree / "p0/cpus", "wb", buffering=0) as file:
                    file.write(b"3")
                    between()
                    self.errs(errno.EINVAL, file.write, b"f\n")
            self.assertEqual(self.ops(tree)[2:], ["write /p0/cpus f", "write /p0/cpus 3", "write /p0/cpus 3"])


class Tasks(Mounts):
    def test_processes(self):
        with mounted(MACHINE, TASKS, words=["--pids"]) as tree, subprocess.Popen(["sleep", "60"]) as process:
            (tree / "p0").mkdir()
            write(tree / "p0/tasks", f"{process.pid}\n")
            write(tree / "p0/tasks", "1000\n")
            self.assertEqual(set((tree / "p0/tasks").read_text().split()), {"1000", str(process.pid)})
            process.kill()
            process.wait()
            self.assertEqual((tree / "p0/tasks").read_text(), "1000\n")
            self.errs(errno.ESRCH, write, tree / "p0/tasks", f"1001,{process.pid}\n")
            self.assertEqual((tree / "info/last_cmd_status").read_text(), f"no task {process.pid}\n")
            self.assertEqual((tree / "p0/tasks").read_text(), "1000\n1001\n")
            self.errs(errno.ESRCH, write, tree / "p0/tasks", f"{2**22 + 1}\n")
            script = (tree / ".sim/script").read_text()
            self.assertIn(f"\ntasks {process.pid}\nphase\n", script)
            self.assertEqual(play(script).refused[0].reason, f"no task {2**22 + 1}")

    def test_a_process_that_has_ended(self):
        with mounted(MACHINE, TASKS, words=["--pids", "--strict"]) as tree, subprocess.Popen(["sleep", "60"]) as process:
            (tree / "p0").mkdir()
            write(tree / "p0/tasks", f"{process.pid}\n")
            self.errs(errno.EINVAL, write, tree / "p0/mode", "pseudo-locksetup\n")
            process.kill()
            process.wait()
            self.errs(errno.ESRCH, write, tree / "p0/tasks", f"{process.pid}\n")
            status = f"No task {process.pid}\nError while processing task {process.pid}\n"
            self.assertEqual((tree / "info/last_cmd_status").read_text(), status)
            write(tree / "p0/mode", "pseudo-locksetup\n")
            self.assertEqual(self.ops(tree)[-2:], [f"write /tasks {process.pid}", "write /p0/mode pseudo-locksetup"])

    def test_processes_are_no_tasks_unasked(self):
        record = self.folder / "my.script"
        with mounted(MACHINE, TASKS, words=["--record", record]) as tree:
            self.errs(errno.ESRCH, write, tree / "tasks", f"{os.getpid()}\n")
        # The record has the refusal, so it stays one.
        with mounted(words=["--resume", record, "--pids"]) as tree:
            self.errs(errno.ESRCH, write, tree / "tasks", f"{os.getpid()}\n")
            write(tree / "tasks", f"{os.getppid()}\n")
