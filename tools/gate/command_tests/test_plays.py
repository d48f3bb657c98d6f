"""Each word of a program writes what the program writes, byte for byte, of a file and of standard input."""
import os
import unittest

from installed import EXAMPLES, PROGRAMS, bikhnoun, program

SCRIPT = EXAMPLES / "isolated_tenant.script"
TRACE = b" L 0,4\n S 40,4\nI  400,4\n L 0,4\n"


class Plays(unittest.TestCase):
    def is_same(self, name, forms, words, path):
        """A call of the program by these forms, and one of the word, on a file, on `-`, and on standard input."""
        data = path.read_bytes()
        wanted = program(name, *forms, data=data)
        self.assertEqual(wanted.returncode, 0)
        for given, source in (([path], None), (["-"], data), ([], data)):
            done = bikhnoun(*words, *given, data=source)
            self.assertEqual((done.returncode, done.stderr, done.stdout), (0, b"", wanted.stdout), msg=f"{words} {given}")

    def test_play(self):
        self.is_same("resctrl_sim", ["step"], ["play"], SCRIPT)
        self.is_same("resctrl_sim", ["step", "--windows", "--json"], ["play", "--windows", "--json"], SCRIPT)

    def test_flags_follow_the_file_too(self):
        done = bikhnoun("play", SCRIPT, "--quiet")
        self.assertEqual(done.stdout, program("resctrl_sim", "step", "--quiet", data=SCRIPT.read_bytes()).stdout)

    def test_run(self):
        # It has one thread, so that all its runs are one.
        self.is_same("resctrl_sim", ["run"], ["run"], EXAMPLES / "mask_rewrite.script")

    def test_export(self):
        script = EXAMPLES / "mask_rewrite.script"
        for how in ("step", "run"):
            self.is_same("resctrl_check", ["export", how], ["export", how], script)

    def test_check_has_the_proved_answer_first(self):
        journal = EXAMPLES / "journals" / "administrators.journal"
        lines = journal.read_bytes().splitlines(keepends=True)
        # docs/JOURNALS.md has this one: its flush is never taken.
        no = b"".join(lines[:18] + lines[19:])
        for words, data, status in (([journal], None, 0), (["-"], b"".join(lines), 0), ([], no, 6)):
            done = bikhnoun("check", *words, data=data)
            first, *more = done.stdout.splitlines(keepends=True)
            self.assertEqual((done.returncode, done.stderr), (status, b""))
            self.assertEqual(first, program("resctrl_check", "check", data=data or journal.read_bytes()).stdout)
            self.assertTrue(more and all(line.startswith(b"not proved: ") for line in more), msg=more)

    def test_plan(self):
        self.is_same("resctrl_plan", ["divide"], ["plan", "divide"], EXAMPLES / "three_tenants.script")
        wanted = program("resctrl_plan", "curve", "4", "2", data=TRACE).stdout
        self.assertEqual(bikhnoun("plan", "curve", "4", "2", data=TRACE).stdout, wanted)
        wanted = program("resctrl_plan", "curve", "4", "2", "--one-of", "2", data=TRACE).stdout
        self.assertEqual(bikhnoun("plan", "curve", "4", "2", "--one-of", "2", data=TRACE).stdout, wanted)
        wanted = program("resctrl_plan", "curve", "4", "2", "--one-of", "2", "--scaled", data=TRACE).stdout
        self.assertEqual(bikhnoun("plan", "curve", "4", "2", "--one-of", "2", "--scaled", data=TRACE).stdout, wanted)
        wanted = program("resctrl_plan", "curve", "4", "2", "--first", data=TRACE).stdout
        self.assertEqual(bikhnoun("plan", "curve", "4", "2", "--first", data=TRACE).stdout, wanted)
        levels = ["--l1", "2x1", "--l2", "2x2"]
        wanted = program("resctrl_plan", "curve", "4", "2", *levels, data=TRACE).stdout
        self.assertEqual(bikhnoun("plan", "curve", "4", "2", *levels, data=TRACE).stdout, wanted)

    def test_two_masks(self):
        pairs = EXAMPLES / "pairs"
        for name, word in (("resctrl_cdp", "cdp"), ("resctrl_l2", "levels")):
            path = next(path for path in sorted(pairs.glob("*.script")) if program(name, data=path.read_bytes()).returncode == 0)
            self.is_same(name, [], [word], path)
            self.is_same(name, ["--quiet"], [word, "--quiet"], path)

    def test_order(self):
        journal = EXAMPLES / "journals" / "administrators.journal"
        if "resctrl_replay" in map(os.path.basename, PROGRAMS):
            self.is_same("resctrl_replay", ["order"], ["order"], journal)
            return
        done = bikhnoun("order", journal)
        self.assertEqual((done.returncode, done.stdout), (3, b""))
        self.assertIn(b"bikhnoun order: resctrl_replay is missing", done.stderr)

    def test_report(self):
        if "resctrl_replay" in map(os.path.basename, PROGRAMS):
            journal = EXAMPLES / "journals" / "administrators.journal"
            self.is_same("resctrl_replay", ["report"], ["report"], journal)
            self.is_same("resctrl_replay", ["report", "--windows", "--json"], ["report", "--windows", "--json"], journal)

    def test_tools(self):
        journal = EXAMPLES / "journals" / "administrators.journal"
        for words in (["explain", SCRIPT], ["statement", journal], ["timeline", SCRIPT], ["ways", EXAMPLES / "ways_for_a_loop.script", "/"]):
            done = bikhnoun(*words)
            self.assertEqual((done.returncode, done.stderr), (0, b""), msg=words)
            self.assertTrue(done.stdout, msg=words)
            self.assertEqual(bikhnoun(words[0], "-", *words[2:], data=words[1].read_bytes()).returncode, 0, msg=words)
        done = bikhnoun("traces", data=TRACE)
        self.assertEqual(done.returncode, 0)
        self.assertTrue(done.stdout.startswith(b"machine "))
