"""Help, versions, and words that are none."""
import hashlib
import os
import re
import unittest

from bikhnoun.command import WORDS
from installed import PROGRAMS, TOP, bikhnoun, command, help_of

OLD = ("explain", "kernel", "mount", "page", "timeline", "traces", "ways")
# What --help of the mount calls itself is its own.
NAMED = [word for word in WORDS if word != "mount"]


class Words(unittest.TestCase):
    def test_help_and_version_end_well(self):
        for words in (["--help"], ["-h"], ["help"], ["--version"], ["help", "plan"], ["plan", "curve", "--help"]):
            done = bikhnoun(*words)
            self.assertEqual((done.returncode, done.stderr), (0, b""), msg=words)
            self.assertIn(b"bikhnoun", done.stdout)

    def test_each_word_has_help(self):
        for word in WORDS:
            if word in NAMED:
                self.assertTrue(help_of(word).startswith(f"usage: bikhnoun {word} "), msg=help_of(word))
            if word in ("play", "mount", "plan"):
                done = bikhnoun(word, "--version")
                self.assertRegex(done.stdout.decode(), rf"^bikhnoun {word} \d+\.\d+\n$")

    def test_the_help_lists_each_word(self):
        said = bikhnoun("--help").stdout.decode()
        self.assertEqual(re.findall(r"^  (\w+)  +\S", said.partition("words:\n")[2], re.M), list(WORDS))

    def test_wrong_words_are_told(self):
        for words, cause in (
            ([], "a word is missing"),
            (["plai"], "is it 'play'?"),
            (["xyz"], "there is no word 'xyz'"),
            (["play", "--jurnal"], "unrecognized arguments: --jurnal"),
            (["play", "a", "b"], "unrecognized arguments: b"),
            (["export"], "arguments are required"),
            (["plan", "curve", "4"], "arguments are required: WAYS"),
            (["ways", "a"], "arguments are required: GROUP"),
        ):
            done = bikhnoun(*words)
            self.assertEqual((done.returncode, done.stdout), (2, b""), msg=words)
            self.assertIn(cause, done.stderr.decode())

    def test_names_of_an_earlier_version_are_links(self):
        for word in OLD:
            self.assertEqual(os.readlink(command(f"resctrl_sim-{word}")), "bikhnoun")
        done = bikhnoun("--help", name="resctrl_sim-explain")
        self.assertEqual(done.returncode, 0)
        self.assertTrue(done.stdout.startswith(b"usage: resctrl_sim-explain "))

    def test_the_launcher_of_the_clone_runs(self):
        self.assertTrue(os.access(TOP / "tools" / "bikhnoun", os.X_OK))

    def test_version_has_the_hash_of_each_program(self):
        lines = bikhnoun("version").stdout.decode().splitlines()
        self.assertRegex(lines[0], r"^bikhnoun \d+\.\d+$")
        self.assertRegex(lines[1], r"^commit ([0-9a-f]{40}(, with changes)?|not known)$")
        self.assertRegex(lines[2], r"^kit rattle-kit")
        for path in PROGRAMS:
            name = os.path.basename(path)
            with open(path, "rb") as file:
                self.assertIn(f"{hashlib.sha256(file.read()).hexdigest()}  {command(name)}", lines)
