"""What `tools/bikhnoun kernel` is made of, as far as it needs no kernel."""
from pathlib import Path
import tempfile
import unittest

from kernels.answers import FULL, answers_of
from kernels.booting import answered
from kernels.patching import Anchor, NoAnchor, set_at

EINVAL, ENOSPC = 22, 28
NO_CLASS = "Out of CLOSIDs\n"


class Anchors(unittest.TestCase):
    def changed(self, text):
        with tempfile.TemporaryDirectory() as folder:
            path = Path(folder, "core.c")
            path.write_text(text)
            set_at(path, Anchor(Path("core.c"), "cpuid(", "simulated("))
            return path.read_text()

    def test_an_anchor_stands_once(self):
        self.assertEqual(self.changed("a = cpuid(1);"), "a = simulated(1);")

    def test_another_kernel_is_refused(self):
        for text in ("a = cpuid_count(1);", "a = cpuid(1) + cpuid(2);"):
            with self.assertRaisesRegex(NoAnchor, r"core\.c has 'cpuid\(' [02] times, and not once"):
                self.changed(text)


class Answers(unittest.TestCase):
    def test_lines_of_a_guest(self):
        lines = ["quiet boot", "@ script", "@ 0 6f6b0a -", "[ 1.0] noise@ 22 - 6f6b0a", "@ script", "@ end 0"]
        self.assertEqual(answered(lines), [[(0, "ok\n", ""), (EINVAL, "", "ok\n")], []])

    def test_what_a_command_told(self):
        words = ["mkdir /a", "mkdir /b", "write /schemata L3:0=5", "write /schemata L3:9=1", "mkdir /none/a"]
        gap = "The mask 5 has non-consecutive 1-bits\n"
        raw = [(ENOSPC, "", NO_CLASS), (ENOSPC, "", NO_CLASS * 2), (EINVAL, "", gap), (EINVAL, "", "ok\n"), (2, "", "ok\n")]
        self.assertEqual([answer.told for answer in answers_of(words, raw)], [NO_CLASS, NO_CLASS, gap, "", ""])

    def test_a_full_status(self):
        raw = [(ENOSPC, "", NO_CLASS * 34), (ENOSPC, "", NO_CLASS * 34)]
        _, last = answers_of(["mkdir /a", "mkdir /b"], raw)
        self.assertEqual(last.shown, f"ENOSPC {FULL}")
