"""Completion in bash: loaded by the name of each command, and with the words and flags that --help has."""
import os
import subprocess
import unittest

from bikhnoun.command import WORDS
from explained.kinds import KINDS
from tracing.writing import WRITERS
from translated.command import FORMS
from installed import EVERYWHERE, PROGRAMS, options_of, tree

OLD = ("explain", "kernel", "mount", "page", "timeline", "traces", "ways")


def completed(*words):
    """What bash offers at the last of these words, after it has loaded the file of the command's name alone."""
    script = """
        . "$1/share/bash-completion/completions/$2"
        shift
        COMP_WORDS=("$@") COMP_CWORD=$(($# - 1))
        $(complete -p "$1" | sed 's/.*-F \\([^ ]*\\).*/\\1/')
        printf '%s\\n' "${COMPREPLY[@]}"
    """
    done = subprocess.run(["bash", "--norc", "-c", script, "bash", tree(), *words], capture_output=True, text=True, check=True)
    assert not done.stderr, done.stderr
    return set(done.stdout.split())


class Completion(unittest.TestCase):
    def test_each_command_has_a_file_of_its_name(self):
        for name in ("bikhnoun", *map(os.path.basename, PROGRAMS), *(f"resctrl_sim-{word}" for word in OLD)):
            self.assertTrue((tree() / "share/bash-completion/completions" / name).exists(), msg=name)
            self.assertTrue(completed(name, ""), msg=name)

    def test_words(self):
        self.assertEqual(completed("bikhnoun", ""), {*WORDS, "--help", "--version"})
        self.assertEqual(completed("bikhnoun", "p"), {"play", "plan", "page"})
        self.assertEqual(completed("bikhnoun", "export", ""), {"step", "run"})
        self.assertEqual(completed("bikhnoun", "plan", "d"), {"divide", "draw"})
        self.assertEqual(completed("bikhnoun", "explain", "--for", ""), set(KINDS))
        self.assertEqual(completed("bikhnoun", "traces", "--for", ""), set(WRITERS))
        self.assertEqual(completed("bikhnoun", "translate", ""), set(FORMS))
        self.assertEqual(completed("resctrl_check", "export", ""), {"step", "run"})
        flags = ["--l1", "--l2", "--one-of", "--first"]
        self.assertEqual(completed("resctrl_plan", "curve", "4", "2", ""), set(flags))
        for place, flag in enumerate(flags[:-2], 1):
            self.assertEqual(completed("resctrl_plan", "curve", "4", "2", flag, "4", ""), set(flags[place:]))
        self.assertEqual(completed("resctrl_plan", "curve", "4", "2", "--one-of", "4", ""), {"--scaled", "--first"})
        self.assertEqual(completed("resctrl_plan", "filter", ""), {"--l1", "--l2"})
        self.assertEqual(completed("resctrl_plan", "share", "4", "2", ""), {"--l1", "--l2", "--ratio"})

    def test_flags_are_those_of_the_help(self):
        for word in WORDS:
            self.assertEqual(completed("bikhnoun", word, "--"), options_of(word) | EVERYWHERE, msg=word)

    def test_what_was_typed_is_not_offered_again(self):
        self.assertNotIn("--json", completed("bikhnoun", "play", "--json", "--"))
        self.assertEqual(completed("resctrl_sim-mount", "--m"), {"--machine"})
