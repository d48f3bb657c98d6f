"""Servers of the mount: how they begin and end."""
import os
from pathlib import Path
import signal
import subprocess
import time

from resctrl_sim import Program
from resctrl_sim.host import Host, machine_keys
from resctrl_sim.mounting import PACKAGES, interpreter
from resctrl_sim.names import tool_name
from mounts import Mounts

NAME = tool_name("mount")
LONGEST_SECONDS = 60


class Servers(Mounts):
    def test_after_a_kill(self):
        server = subprocess.Popen(command(self.folder), env=environment(), stderr=subprocess.DEVNULL)
        while not os.path.ismount(self.folder):
            time.sleep(0.01)
        server.kill()
        server.wait()
        said = subprocess.run(command(self.folder), env=environment(), capture_output=True, text=True, check=False)
        subprocess.run(["fusermount3", "-u", self.folder], check=True)
        self.assertEqual(said.returncode, 1)
        self.assertEqual(said.stderr, f"{NAME}: {self.folder} is what an ended mount has left: fusermount3 -u {self.folder}\n")

    def test_run(self):
        if os.geteuid() != 0:
            self.skipTest("only root has a mount namespace")
        before = mounts_at_the_tree()
        script = "cat /sys/fs/resctrl/schemata; grep -c ' /sys/fs/resctrl resctrl ' /proc/mounts; grep -c resctrl /proc/filesystems; exit 7"
        run = [*command("--machine", "ways=4", "--run"), "sh", "-c"]
        done = subprocess.run([*run, script], env=environment(), capture_output=True, text=True, check=False)
        self.assertEqual((done.returncode, done.stdout), (7, "L3:0=f\n1\n1\n"))
        self.assertEqual(mounts_at_the_tree(), before)
        shown = "grep -c ' - resctrl resctrl ' $0; exec grep -c '^resctrl /sys/fs/resctrl resctrl ' /proc/self/mounts"
        done = subprocess.run([*run, shown, "/proc/self/mountinfo"], env=environment(), capture_output=True, text=True, check=False)
        # The command itself sees it. Another process that it starts does not, unless it is one of those that are known to look there.
        self.assertEqual(done.stdout, "0\n1\n")
        done = subprocess.run([*run, "kill -TERM $$"], env=environment(), capture_output=True, check=False)
        self.assertEqual(done.returncode, 128 + signal.SIGTERM)
        done = subprocess.run([*run[:-2], "no_such_command"], env=environment(), capture_output=True, text=True, check=False)
        self.assertEqual((done.returncode, done.stderr), (127, f"{NAME}: no_such_command: No such file or directory\n"))

    def test_machine_of_this_host(self):
        if os.geteuid() != 0:
            self.skipTest("only root has a mount namespace")
        for words, asked in [((), "host"), (("--machine", "host ways=4"), "host ways=4"), (("--machine", ""), None)]:
            run = command(*words, "--run", "head", "-n", "1", "/sys/fs/resctrl/.sim/script")
            done = subprocess.run(run, env=environment(), capture_output=True, text=True, check=False)
            keys = machine_keys(asked, Host.read())[0] if asked else ""
            self.assertEqual(done.stdout, f"machine {keys}".rstrip() + "\n")
            self.assertEqual(done.stderr.startswith(f"{NAME}: the machine is this host's: {keys}"), bool(asked))

    def test_a_program_that_looks_into_its_own_mountinfo(self):
        if os.geteuid() != 0:
            self.skipTest("only root has a mount namespace")
        reader = self.folder / "runc"
        reader.write_text("#!/usr/bin/python3\nprint(*(line for line in open('/proc/self/mountinfo') if ' /sys/fs/resctrl ' in line))\n")
        reader.chmod(0o755)
        path = environment() | {"PATH": f"{self.folder}:{os.environ['PATH']}"}
        run = command("--machine", "ways=4", "--run", "sh", "-c", "runc; cat $(command -v runc) | head -n 1")
        done = subprocess.run(run, env=path, capture_output=True, text=True, check=False)
        self.assertRegex(done.stdout, r"^\d+ \d+ \d+:\d+ / /sys/fs/resctrl .* - resctrl resctrl rw\n\n#!/bin/sh\n$")
        self.assertTrue(reader.read_text().startswith("#!/usr/bin/python3\n"))

    def says(self, *words):
        """What a mount that fails says, and that it ends with status 1."""
        run = command(*words, self.folder)
        done = subprocess.run(run, env=environment(), capture_output=True, text=True, check=False, timeout=LONGEST_SECONDS)
        self.assertEqual(done.returncode, 1)
        return done.stderr

    def test_words_that_no_machine_has(self):
        self.assertEqual(
            self.says("--machine", "sets=3"),
            f"{NAME}: --machine: bad machine line: sets 3 is not a power of two; the next powers of two are 2 and 4\n",
        )
        self.assertEqual(self.says("--tasks", "1-3,0"), f"{NAME}: --tasks: bad tasks line: there is no task 0; tasks are numbered from 1\n")

    def test_other_programs(self):
        for program, why in [
            ("/bin/true", "/bin/true is not resctrl_sim: it does not play a script"),
            ("/bin/false", "/bin/false is not resctrl_sim: /bin/false ended with status 1"),
            ("/dev/null", "/dev/null is not a program; `make demo` builds it"),
        ]:
            self.assertEqual(self.says("--program", program), f"{NAME}: {why}\n")

    def test_directory_with_something_in_it(self):
        (self.folder / "kept").touch()
        said = subprocess.run(command(self.folder), env=environment(), capture_output=True, text=True, check=False)
        self.assertEqual((said.returncode, said.stderr), (1, f"{NAME}: {self.folder} is not empty\n"))


def mounts_at_the_tree():
    """What is mounted where a kernel has its tree, or around it."""
    return [line for line in Path("/proc/mounts").read_text().splitlines() if line.split()[1].startswith("/sys/fs")]


def command(*words):
    """The mount by its command line."""
    return [interpreter(), "-m", "resctrl_sim.mount", "--program", Program().path, *words]


def environment():
    return os.environ | {"PYTHONPATH": PACKAGES}
