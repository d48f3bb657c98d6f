"""`last_cmd_status` as a kernel keeps it.

Of what the mount itself refuses, the cause is the mount's own word, until the next command that sets it. Without it a tool would read the
cause of another command.
"""
from ..kernel_words import FORMATTED

STATUS_BYTES = 512


class Status:
    """What was told since a write began it anew, as far as it has room."""

    def __init__(self):
        self.told = ""
        self.is_full = False

    def begin(self):
        self.told, self.is_full = "", False

    def add(self, words):
        """Adds lines, up to the first that has no room. Of that one a kernel keeps what fits if it is formatted, and else nothing."""
        for line in words.splitlines(keepends=True):
            room = STATUS_BYTES - 1 - len(self.told)
            if not self.is_full and (len(line) <= room or line.startswith(FORMATTED)):
                self.told += line[:room]
            self.is_full = self.is_full or len(line) > room

    @property
    def text(self):
        return self.told or "ok\n"
