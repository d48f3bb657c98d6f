"""Plays of scripts whose reports were worked out by hand, and the machine's line."""
import unittest

from resctrl_sim import Checker, Domain, Group, Machine, NoScript, NotAsked, Total, play

LINES = ["machine sets=1 ways=4", "tasks 1-2", "phase", "thread"]


class Plays(unittest.TestCase):
    def test_counts(self):
        # Four ways take four lines; the fifth replaces the oldest, line 0, and line 4 is hit.
        report = play([*LINES, "sweep 1 0 0 5 64", "access 2 0 256"])
        self.assertEqual(report.total, Total(accesses=6, commands=0, hits=1, misses=5, refused=0))
        self.assertEqual(report.groups, (Group(gid=0, path="/", accesses=6, hits=1, misses=5),))
        self.assertEqual(report.domains, (Domain(domain=0, places=4, valid=4, rmids={0: 4}),))
        self.assertEqual(report.commands, ())
        self.assertAlmostEqual(report.group("/").miss_rate, 5 / 6)

    def test_commands(self):
        report = play([*LINES, "mkdir /a", "write /a/schemata L3:0=5", "read /info/last_cmd_status"])
        made, refused, read = report.commands
        self.assertEqual((made.accepted, made.error, made.reason, made.text), (True, None, None, None))
        self.assertEqual((refused.error, refused.reason), ("EINVAL", "mask 5 has non-consecutive 1-bits"))
        self.assertEqual((read.words, read.text), ("read /info/last_cmd_status", ("mask 5 has non-consecutive 1-bits",)))
        self.assertEqual(report.refused, (refused,))

    def test_journal_and_windows(self):
        # The group is exclusive on two ways from the flush on, so both of its two accesses are covered and the second hits.
        words = ["mkdir /a", "write /a/schemata L3:0=3", "write /schemata L3:0=c", "write /a/mode exclusive", "write /a/tasks 1"]
        report = play([*LINES, *words, "flush", "access 1 0 0", "access 1 0 0"], journal=True, windows=True, quiet=True)
        self.assertRaisesRegex(NotAsked, "no commands: it was played with quiet=True", lambda: report.commands)
        (journal,) = report.journal
        self.assertEqual([entry.split(" ", 3)[3].split(" ")[0] for entry in journal.entries], ["raise"] * 3 + ["flush"] + ["access"] * 2)
        (window,) = report.windows
        self.assertEqual((window.gid, window.ways, window.start, window.covered, window.covered_hits), (1, 2, 3, 2, 1))

    def test_what_was_not_asked_for(self):
        report = play([*LINES, "access 1 0 0"])
        for name in ("journal", "windows"):
            with self.assertRaisesRegex(NotAsked, f"this report has no {name}: play with {name}=True"):
                getattr(report, name)
        self.assertEqual(play(LINES, windows=True).windows, ())

    def test_threads(self):
        report = play([*LINES, "mkdir /a", "thread", "mkdir /a"], run=True)
        self.assertEqual(sorted(command.result for command in report.commands), ["EEXIST file exists", "ok"])

    def test_last_group_of_a_path(self):
        report = play([*LINES, "mkdir /a", "rmdir /a", "mkdir /a", "write /a/tasks 1", "access 1 0 0"])
        self.assertEqual((report.group("/a").gid, report.group("/a").accesses), (2, 1))
        self.assertRaises(KeyError, report.group, "/b")

    def test_no_script(self):
        with self.assertRaises(NoScript) as fault:
            play([*LINES, "access 3 0 0"])
        self.assertEqual((fault.exception.line, fault.exception.what), (5, "unknown task"))


class Journals(unittest.TestCase):
    def test_export_and_check(self):
        script = "machine sets=1 ways=4\ntasks 1\nphase\nthread\naccess 1 0 64\n"
        journal = "journal 1\nslice 0 0 1\naccess 0 0 0 0 0 15 1 0 0\nend\n"
        checker = Checker()
        self.assertEqual(checker.export(script), script + journal)
        self.assertEqual(checker.check(script + journal), "yes")
        # The mask of the default group is f, and line 1 is the one of address 64.
        self.assertEqual(checker.check(script + journal.replace(" 15 ", " 12 ")), "no D11")
        self.assertEqual(checker.check(script + journal.replace(" 15 1 ", " 15 2 ")), "no D13.1")
        with self.assertRaises(NoScript) as fault:
            checker.check(script + "journal 1\n")
        self.assertEqual((fault.exception.line, fault.exception.what), (7, "bad journal"))


class Machines(unittest.TestCase):
    def test_line(self):
        self.assertEqual(Machine().line, "machine")
        self.assertEqual(Machine(ways=12, shareable=0xC00).line, "machine ways=12 shareable=c00")
        self.assertEqual(Machine.of("ways=12 shareable=0xc00"), Machine(ways=12, shareable=0xC00))
        self.assertRaisesRegex(ValueError, "colour", Machine.of, "colour=1")

    def test_sizes(self):
        machine = Machine(sets=2048, ways=12)
        self.assertEqual((machine.way_bytes, machine.all_ways), (131072, 0xFFF))


if __name__ == "__main__":
    unittest.main()
