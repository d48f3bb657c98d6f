"""The file of a record where writes fail: whatever happens, it holds whole lines, and no others than were recorded."""
import errno
import os
from pathlib import Path
import tempfile
import unittest

from resctrl_sim.mount.record import NoRecord, Record
from resctrl_sim.mount.recording import Recording, Unrecordable, head_of

HEAD = "machine\nphase\nthread\n"


class Failing:
    """A file that takes a few bytes at a time, up to a limit, and cannot be cut back for a while."""

    def __init__(self, file, at_a_time=3, room=10**6, failing_cuts=0):
        self.file, self.at_a_time, self.room, self.failing_cuts = file, at_a_time, room, failing_cuts

    def write(self, data):
        taken = min(len(data), self.at_a_time, self.room)
        if taken == 0:
            raise OSError(errno.ENOSPC, os.strerror(errno.ENOSPC))
        self.room -= taken
        return self.file.write(data[:taken])

    def truncate(self, size):
        if self.failing_cuts:
            self.failing_cuts -= 1
            raise OSError(errno.EIO, os.strerror(errno.EIO))
        return self.file.truncate(size)

    def seek(self, place):
        return self.file.seek(place)

    def close(self):
        self.file.close()


class Player:
    """Plays any script: it says so of each op."""

    def play(self, script):
        ops = script.splitlines()[3:]
        return "".join(f"{at} 0.{at} {op}: ok\n" for at, op in enumerate(ops)) + "total: ..\n"


class Records(unittest.TestCase):
    def setUp(self):
        folder = tempfile.TemporaryDirectory()
        self.addCleanup(folder.cleanup)
        self.path = Path(folder.name, "my.script")
        self.record = Record(str(self.path))
        self.recording = Recording(Player(), head_of("", ""), self.record)
        self.record.begin(self.recording.script())
        self.addCleanup(lambda: self.record.file.close())

    def fails(self, number, call, *given):
        with self.assertRaises(Unrecordable) as fault:
            call(*given)
        self.assertEqual(fault.exception.errno, number)

    def holds(self, *ops):
        """The record, the script and its report have these ops."""
        text = HEAD + "".join(op + "\n" for op in ops)
        self.assertEqual((self.path.read_text(), self.recording.script()), (text, text))
        self.assertEqual(self.recording.report, Player().play(text))

    def test_short_writes_are_completed(self):
        self.record.file = Failing(self.record.file)
        self.recording.do("mkdir /a")
        self.recording.keep(["access 1 0 0", "tick"])
        self.holds("mkdir /a", "access 1 0 0", "tick")

    def test_a_full_disk(self):
        self.recording.do("mkdir /a")
        self.record.file = Failing(self.record.file, room=5)
        self.fails(errno.ENOSPC, self.recording.do, "mkdir /b")
        self.holds("mkdir /a")
        self.record.file.room = 10**6
        self.recording.do("mkdir /after")
        self.holds("mkdir /a", "mkdir /after")

    def test_no_room_at_all(self):
        self.record.file = Failing(self.record.file, room=0)
        for _ in range(3):
            self.fails(errno.ENOSPC, self.recording.do, "mkdir /b")
        self.holds()

    def test_a_cut_that_fails(self):
        self.record.file = Failing(self.record.file, room=5, failing_cuts=2)
        self.fails(errno.ENOSPC, self.recording.do, "mkdir /b")
        # What was cut off late is cut off before anything else is written: until then nothing is.
        self.record.file.room = 10**6
        self.fails(errno.EIO, self.recording.do, "mkdir /c")
        self.recording.do("mkdir /d")
        self.holds("mkdir /d")

    def test_a_replacement_that_fails(self):
        self.recording.do("write /schemata L3:0=3")
        os.mkdir(f"{self.path}.new")
        self.fails(errno.EISDIR, self.recording.do_again, "write /schemata L3:0=3f")
        self.fails(errno.EISDIR, self.recording.declare, [7])
        self.holds("write /schemata L3:0=3")
        os.rmdir(f"{self.path}.new")
        self.recording.do_again("write /schemata L3:0=3f")
        self.recording.do("mkdir /a")
        self.holds("write /schemata L3:0=3f", "mkdir /a")
        self.assertEqual(os.listdir(self.path.parent), [self.path.name])

    def test_a_file_that_is_there(self):
        self.assertRaisesRegex(NoRecord, "is there already; .*--force", Record(str(self.path)).begin, HEAD)
        self.holds()


if __name__ == "__main__":
    unittest.main()
