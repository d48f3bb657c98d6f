"""Curves of several traces, and flags that stand before them."""
from installed import program, stand_in
from traced import LONG, SHORT, SHOWN, Traced


class Traces(Traced):
    def test_curves_of_several_traces(self):
        done = self.plan("curve", "4", "2", "long", "short")
        parts = (b"trace %s:\n%s" % (name, program("resctrl_plan", "curve", "4", "2", data=trace).stdout) for name, trace in ((b"long", LONG), (b"short", SHORT)))
        self.assertEqual((done.returncode, done.stdout, done.stderr), (0, b"".join(parts), b""))

    def test_traces_stand_after_flags_too(self):
        shown = stand_in(self.folder, SHOWN, "resctrl_plan")
        for words in (["4", "2", "--l1", "64x8", "--first", "short"], ["--l1", "64x8", "4", "2", "short", "--first"]):
            done = self.plan("curve", *words, programs=shown)
            self.assertEqual((done.returncode, done.stdout), (0, b"curve 4 2 --l1 64x8 --first\n" + SHORT), msg=words)

    def test_a_bad_trace_of_several(self):
        done = self.plan("curve", "4", "2", "short", "bad")
        self.assertEqual((done.returncode, done.stdout.partition(b"\n")[0]), (1, b"trace short:"))
        self.assertIn(b"bad: line 1: bad trace line", done.stderr)
