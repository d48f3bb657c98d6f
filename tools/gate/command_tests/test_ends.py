"""How a call ends: exit statuses with their cause, pipes that are closed, Control+C, programs that are missing."""
import os
import signal
import subprocess
import tempfile
import time
import unittest

from installed import EXAMPLES, SECONDS, bikhnoun, command, stand_in

SCRIPT = EXAMPLES / "isolated_tenant.script"
JOURNAL = EXAMPLES / "journals" / "administrators.journal"
LONG = b"machine sets=1 ways=4\ntasks 1\nphase\nthread\n" + b"read /schemata\n" * 20000


class Ends(unittest.TestCase):
    @classmethod
    def setUpClass(cls):
        # A shell starts what runs in its background with this signal ignored, and what is tried here would inherit that.
        before = signal.signal(signal.SIGINT, signal.default_int_handler)
        cls.addClassCleanup(signal.signal, signal.SIGINT, before)

    def setUp(self):
        folder = tempfile.TemporaryDirectory()
        self.addCleanup(folder.cleanup)
        self.folder = folder.name

    def ends(self, done, status, cause):
        self.assertEqual((done.returncode, done.stdout), (status, b""))
        self.assertIn(cause, done.stderr.decode())
        self.assertEqual(done.stderr.count(b"\n"), 1)
        self.assertNotIn(b"Traceback", done.stderr)

    def test_invalid_input(self):
        self.ends(bikhnoun("play", "--json", data=b"machine sets=3\n"), 1, "bikhnoun play: standard input: line 1: bad machine line; `bikhnoun explain -`")
        self.ends(bikhnoun("statement", data=b"machine\n"), 1, "standard input: line 0: no journal; `bikhnoun check -` says more")
        self.ends(bikhnoun("plan", "curve", "0", "4"), 2, "usage: resctrl_plan")

    def test_check_says_more_of_invalid_input(self):
        done = bikhnoun("check", data=b"machine\n")
        self.assertEqual((done.returncode, done.stdout), (1, b""))
        first, *more = done.stderr.decode().splitlines()
        self.assertEqual(first, "bikhnoun check: standard input: line 0: no journal")
        self.assertRegex("\n".join(more), "^not proved: no line is `journal 1`.*$")

    def test_unread(self):
        self.ends(bikhnoun("play", "not_there"), 3, "bikhnoun play: not_there: No such file or directory")
        self.ends(bikhnoun("check", self.folder), 3, "Is a directory")
        for word in ("explain", "check", "statement", "timeline", "page"):
            self.ends(bikhnoun(word, "not_there"), 3, "not_there: No such file or directory")
        self.ends(bikhnoun("ways", "not_there", "/"), 3, "not_there: No such file or directory")

    def test_statuses_have_their_cause(self):
        for status, cause in ((3, "the input could not be read"), (4, "the output could not be written"), (5, "there is not enough memory")):
            done = bikhnoun("play", SCRIPT, programs=stand_in(self.folder, f"exit {status}"))
            self.ends(done, status, f"bikhnoun play: resctrl_sim: {cause}")
        self.ends(bikhnoun("play", SCRIPT, programs=stand_in(self.folder, "kill -9 $$")), 137, "resctrl_sim was ended by SIGKILL")
        self.ends(bikhnoun("explain", SCRIPT, programs=stand_in(self.folder, "exit 5")), 3, "there is not enough memory")
        for word in ("check", "statement"):
            self.ends(bikhnoun(word, JOURNAL, programs=stand_in(self.folder, "exit 5", "resctrl_check")), 5, "there is not enough memory")

    def test_the_program_s_own_statuses(self):
        real = command("resctrl_sim")
        for status, how, cause in (
            (3, "< /", "the input could not be read"),
            (4, "> /dev/full", "the output could not be written"),
        ):
            done = bikhnoun("play", SCRIPT, programs=stand_in(self.folder, f'exec "{real}" "$@" {how}'))
            self.ends(done, status, f"bikhnoun play: resctrl_sim: {cause}")

    def test_a_full_disk(self):
        by_tool = "No space left on device"
        for word, file, cause in (
            ("play", [SCRIPT], "no space is left on its device"), ("explain", [SCRIPT], by_tool), ("check", [JOURNAL], by_tool),
            ("statement", [JOURNAL], by_tool), ("version", [], by_tool),
        ):
            with open("/dev/full", "wb") as full:
                done = bikhnoun(word, *file, stdout=full)
            self.assertEqual((done.returncode, done.stderr.decode()), (4, f"bikhnoun {word}: standard output: {cause}\n"))

    def closed(self, how, *words):
        """A call from a shell that closes a stream: both streams, and the exit status."""
        done = subprocess.run(["bash", "-c", f'"$@" {how}', "bash", command(), *map(str, words)], stdin=subprocess.DEVNULL, capture_output=True, check=False)
        return done.returncode, done.stdout, done.stderr.decode()

    def test_closed_streams(self):
        for word, file in (("play", SCRIPT), ("explain", SCRIPT), ("check", JOURNAL), ("statement", JOURNAL)):
            self.assertEqual(self.closed("<&-", word), (3, b"", f"bikhnoun {word}: standard input is closed\n"))
            self.assertEqual(self.closed(">&-", word, file), (4, b"", f"bikhnoun {word}: standard output is closed\n"))
        self.assertEqual(self.closed("2>&-", "play", SCRIPT), (0, bikhnoun("play", SCRIPT).stdout, ""))
        for word in ("play", "explain"):
            self.assertEqual(self.closed("2>&-", word, "not_there"), (3, b"", ""))

    def test_missing_programs(self):
        for word in ("order", "report"):
            done = bikhnoun(word, "-")
            if done.returncode == 3:
                self.ends(done, 3, "resctrl_replay is missing")
        for word, file in (("timeline", SCRIPT), ("explain", SCRIPT), ("check", JOURNAL), ("statement", JOURNAL)):
            self.ends(bikhnoun(word, file, "--program", "/not/there"), 3, "/not/there is not a program")

    def test_a_reader_that_stops(self):
        for words in (["play"], ["play", "--json"], ["export", "step"], ["traces", self.trace()]):
            done = subprocess.run(
                ["bash", "-c", '"$@" | head -c 1 > /dev/null; echo "${PIPESTATUS[0]}"', "bash", command(), *words], input=LONG, capture_output=True, check=False
            )
            self.assertEqual((done.stdout, done.stderr), (b"%d\n" % (128 + signal.SIGPIPE), b""), msg=words)

    def trace(self):
        """A trace of which a script is made that no pipe holds."""
        with open(f"{self.folder}/trace", "wb") as file:
            file.writelines(b" L %x,4\n" % (at * 64) for at in range(20000))
        return file.name

    def slow(self, word="play", name="resctrl_sim"):
        """A call that waits for its program, as the head of processes of its own."""
        programs = stand_in(self.folder, f"echo $$ > {self.folder}/pid; exec sleep 100", name)
        worker = subprocess.Popen(
            [command(), word, str(SCRIPT)], env=os.environ | programs, stdout=subprocess.PIPE, stderr=subprocess.PIPE, start_new_session=True
        )
        deadline = time.time() + 20
        while not (os.path.exists(f"{self.folder}/pid") and os.path.getsize(f"{self.folder}/pid")) and time.time() < deadline:
            time.sleep(0.02)
        return worker

    def has_gone(self):
        """Whether the program ends too."""
        with open(f"{self.folder}/pid", encoding="ascii") as file:
            process, deadline = f"/proc/{int(file.read())}", time.time() + 10
        while os.path.exists(process) and time.time() < deadline:
            time.sleep(0.02)
        return not os.path.exists(process)

    def test_interrupted(self):
        for call in (("play", "resctrl_sim"), ("explain", "resctrl_sim"), ("check", "resctrl_check")):
            worker = self.slow(*call)
            os.killpg(worker.pid, signal.SIGINT)
            out, said = worker.communicate(timeout=SECONDS)
            self.assertEqual((worker.returncode, out, said), (-signal.SIGINT, b"", b""), msg=call)
            self.assertTrue(self.has_gone())
            os.remove(f"{self.folder}/pid")

    def test_terminated(self):
        worker = self.slow()
        worker.terminate()
        out, said = worker.communicate(timeout=SECONDS)
        self.assertEqual((worker.returncode, out, said), (128 + signal.SIGTERM, b"", b""))
        self.assertTrue(self.has_gone())
