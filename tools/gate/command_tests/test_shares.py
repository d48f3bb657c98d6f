"""Several traces: what the planner is asked. The streams of turns were worked out by hand."""
from installed import program, stand_in
from traced import SHOWN, Traced


class Shares(Traced):
    def asked(self, *words):
        """What the planner is asked and given, and what is said on standard error."""
        done = self.plan("share", *words, programs=stand_in(self.folder, SHOWN, "resctrl_plan"))
        self.assertEqual(done.returncode, 0, msg=done.stderr)
        return done.stdout.decode().splitlines(), done.stderr.decode()

    def test_turns_end_with_the_first_trace(self):
        lines, said = self.asked("4", "2", "long", "short")
        uses = ["turn 0", " L 0,64", "turn 1", " L 40,64", "turn 0", " L 40,64", "turn 1", " L 80,64", "turn 0", " L 80,64"]
        self.assertEqual(lines, ["share 4 2 1:1 1:1", *uses])
        self.assertIn("program 0 is long: 3 uses\n", said)
        self.assertIn("program 1 is short: 2 uses\n", said)
        self.assertIn("it stops there, since short has ended", said)

    def test_turns_of_a_ratio_to_the_end_of_all(self):
        lines, _ = self.asked("4", "2", "--ratio", "3:1", "--rest", "long", "short")
        first = ["turn 0", " L 0,64", " L 40,64", " L 80,64", "turn 1", " L 40,64"]
        self.assertEqual(lines, ["share 4 2 1:1 1:1", *first, "turn 0", " L 40,64", " L 80,64", "I  400,64", "turn 1", " L 80,64"])

    def test_levels_are_the_planner_s(self):
        lines, _ = self.asked("--l2", "8x2", "4", "2", "--l1", "1x2", "long", "short")
        self.assertEqual(lines[:3], ["share 4 2 --l1 1x2 --l2 8x2 1:1 1:1", "turn 0", " L 0,64"])

    def test_goals(self):
        lines, _ = self.asked("4", "2", "--goal", "ratio", "--weights", "7:1000", "--least", "1:2", "long", "short")
        self.assertEqual(lines[0], "share 4 2 --ratio 7:1 1000:2")
        lines, _ = self.asked("--machine", "skylake_sp", "long", "short")
        self.assertEqual(lines[0], "share 2048 11 1:1 1:1")

    def test_what_is_wrong(self):
        for words, status, why in (
            (["4", "2", "--ratio", "1", "long", "short"], 2, "--ratio must have a number above 0 for each trace"),
            (["4", "2", "--weights", "1:0", "long", "short"], 2, "--weights must have a number above 0 for each trace"),
            (["4", "2", "--l1", "4", "long"], 2, "usage: resctrl_plan"),
            (["4", "2", "long", "missing"], 3, "missing: No such file"),
            (["4", "2", "long", "bad"], 1, "bad begins neither as a trace"),
            (["0", "2", "long"], 2, "usage: resctrl_plan"),
        ):
            done = self.plan("share", *words)
            self.assertEqual((done.returncode, done.stdout), (status, b""), msg=words)
            self.assertIn(why, done.stderr.decode())

    def test_the_report_is_the_planner_s(self):
        stream = b"".join(line + b"\n" for line in (b"turn 0", b" L 0,64", b"turn 1", b" L 40,64", b"turn 0", b" L 40,64", b"turn 1", b" L 80,64", b"turn 0", b" L 80,64"))
        wanted = program("resctrl_plan", "share", "4", "2", "1:1", "1:1", data=stream)
        self.assertEqual(wanted.returncode, 0)
        self.assertEqual(self.plan("share", "4", "2", "long", "short").stdout, wanted.stdout)

    def test_flags_stand_between_traces_too(self):
        lines, _ = self.asked("4", "2", "long", "--ratio", "1:2", "short")
        self.assertEqual(lines[:5], ["share 4 2 1:1 1:1", "turn 0", " L 0,64", "turn 1", " L 40,64"])
