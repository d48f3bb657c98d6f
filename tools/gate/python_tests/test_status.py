"""`last_cmd_status` of the mount with --strict. Each text was read on a running Linux 6.12 after the same commands."""
import unittest

from resctrl_sim.mount.status import Status

NO_CLASS = "Out of CLOSIDs\n"
NO_WAY = "No space on L3:0\n"


class Statuses(unittest.TestCase):
    def test_what_has_no_room(self):
        status = Status()
        for _ in range(36):
            status.add(NO_CLASS)
        self.assertEqual(status.text, NO_CLASS * 34)

    def test_a_formatted_line_is_cut(self):
        status = Status()
        for _ in range(32):
            status.add(NO_WAY)
        self.assertEqual(status.text, NO_WAY * 30 + "N")
        status.begin()
        status.add(f"Task list parsing error pid {'x' * 600}\n")
        self.assertEqual(len(status.text), 511)
