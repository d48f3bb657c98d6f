"""First levels that the planner plays: what is left is what the tool itself leaves."""
import random
import unittest

from installed import bikhnoun, program

LEVELS = (["--l1", "1K:2"], ["--l2", "2K:4"], ["--l1", "1K:2", "--l2", "2K:4"])


def trace_of(seed):
    """A random trace, with references across two lines."""
    numbers = random.Random(seed)
    uses = (f"{numbers.choice(('I ', ' L', ' S', ' M'))} {numbers.randrange(9000):x},{numbers.choice((1, 8, 64, 100))}\n" for _ in range(400))
    return f"==7== Command: /bin/true\n{''.join(uses)}==7== Exit code:       0\n".encode()


class Filters(unittest.TestCase):
    def test_the_planner_leaves_the_same(self):
        for seed, levels in enumerate(LEVELS):
            for kind in ("trace", "sim"):
                words = ["traces", "--for", kind, "--code", *levels]
                wanted = bikhnoun(*words, data=trace_of(seed))
                done = bikhnoun(*words, "--proved", data=trace_of(seed))
                self.assertEqual((wanted.returncode, done.returncode, done.stdout), (0, 0, wanted.stdout), msg=words)
                self.assertTrue(wanted.stdout)
                passed = wanted.stderr.split(b"of which ")[1].split()[0]
                self.assertIn(b"task 1: %s uses of standard input go on to the" % passed, done.stderr)

    def test_a_word_of_the_program(self):
        wanted = program("resctrl_plan", "filter", "--l1", "8x2", data=trace_of(9))
        self.assertEqual(wanted.returncode, 0)
        self.assertEqual(bikhnoun("plan", "filter", "--l1", "8x2", data=trace_of(9)).stdout, wanted.stdout)

    def test_what_is_wrong(self):
        for words, data, why in (
            (["--proved", "--l1", "1K:2"], trace_of(1), "--proved is for one trace, with --code and a first level"),
            (["--proved", "--code"], trace_of(1), "--proved is for one trace, with --code and a first level"),
            (["--proved", "--code", "--l1", "1K:2"], b"junk\n", "does not begin as a trace of lackey"),
            (["--proved", "--code", "--l1", "1K:2"], b"\n\n", "is empty"),
            (["--proved", "--code", "--l1", "1K:2"], trace_of(1) + b"junk\n", "line 403: bad trace line; without --proved it is passed over"),
        ):
            done = bikhnoun("traces", *words, data=data)
            self.assertEqual(done.returncode, 1, msg=words)
            self.assertIn(why, done.stderr.decode())

    def test_what_valgrind_says_is_heard(self):
        done = bikhnoun("traces", "--proved", "--code", "--l1", "1K:2", data=b"==7== Command: /bin/sh\n L 0,4\n")
        self.assertIn(b"is the trace of a shell, /bin/sh", done.stderr)
        self.assertIn(b"has no exit code at its end", done.stderr)
