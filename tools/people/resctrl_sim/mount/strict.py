"""What a kernel answers otherwise than the simulator, as far as the call of a client and the answers of the simulator tell it.

What would need another state is not imitated: docs/MOUNT.md names it.

If a text comes in two calls, the second is refused, and not taken as a text of its own as a kernel does: no tool means that. A text is
read once, by a reader of a kernel's rules, and the simulator is given its meaning. So a text that only a kernel takes, as `010` for task 8,
needs no second way through the mount.
"""
import errno
import os
import re

from ..kernel_texts import (
    Unread, cpu_list_text, cpus_text, mode_text, schemata_text, tasks_of, threshold_text,
)
from ..kernel_words import LOCKED_WORDS, kernel_words
from ..machine import Machine
from .status import Status
from .texts import Refused, unescaped

PAGE_BYTES = 4096
REGION_BYTES = 4 * 2**20
MOST_CLASSES = 32
# The files that cannot be opened in a group that is being locked, and of one that is locked those for reading and for writing.
HIDDEN = ("tasks", "cpus", "cpus_list")
HIDDEN_LOCKED = ("tasks",)
# The files whose writes begin the status anew.
RESETTING = ("schemata", "mode", "tasks")
FIXED = {"cpus", "cpus_list", "info", "mode", "mon_data", "mon_groups", "schemata", "size", "tasks"}
LOCKING, LOCKED = "pseudo-locksetup", "pseudo-locked"


class Strict:
    """A kernel's answers."""

    def __init__(self, recording):
        self.recording = recording
        (line,) = (line for line in recording.head if line.split()[:1] == ["machine"])
        self.machine = Machine.of(line.strip().removeprefix("machine"))
        self.status = Status()
        # How a kernel names the writer in its reasons, if the last text for `tasks` was to move it.
        self.writer_names = {}

    @property
    def cpus(self):
        return self.machine.cpus or self.machine.domains

    def mode(self, path):
        """The mode of the group that a file is in; of any other file that of the default group, which is never locked."""
        (answer,) = self.recording.ask(f"read {os.path.dirname(path).rstrip('/')}/mode")
        return answer.lines[0] if answer.accepted else ""

    # ---- before a command

    def may_open(self, path, is_written):
        """Refuses what a kernel does not let anyone open."""
        if os.path.basename(path) not in HIDDEN:
            return
        mode = self.mode(path)
        is_hidden = mode == LOCKING or mode == LOCKED and (is_written or os.path.basename(path) in HIDDEN_LOCKED)
        if is_hidden:
            raise Refused(errno.EACCES)

    def may_make(self, path):
        """Refuses a group that a kernel does not make."""
        parent, name = os.path.split(path)
        if name == os.path.basename(parent) == "mon_groups":
            raise Refused(errno.EPERM)
        if self.machine.classes > MOST_CLASSES and parent == "/" and self.classes_in_use() >= MOST_CLASSES:
            self.refuse(path, Unread(errno.ENOSPC, "Out of CLOSIDs\n"))

    def classes_in_use(self):
        """One of each control group that is not locked."""
        (listed,) = self.recording.ask("list /")
        names = set(listed.lines) - FIXED
        modes = self.recording.ask(*(f"read /{name}/mode" for name in names))
        return 1 + sum(mode.lines != (LOCKED,) for mode in modes)

    def text(self, path, written, writer):
        """The text that the simulator is given, and what ends the write after it, or None."""
        file = os.path.basename(path)
        if len(written) > PAGE_BYTES:
            raise Refused(errno.E2BIG)
        if not written.isascii():
            raise Refused(errno.EINVAL)
        if file in RESETTING:
            self.status.begin()
        try:
            return self.read(path, file, written.decode("ascii"), writer)
        except Unread as why:
            self.refuse(path, why)

    def read(self, path, file, text, writer):
        """Reads a text as a kernel does."""
        if file == "tasks":
            tasks = tasks_of(text)
            self.writer_names = {str(writer): "0"} if 0 in tasks.ids else {}
            return ",".join(str(task or writer) for task in tasks.ids), tasks.fault
        if file == "cpus":
            return cpus_text(text, self.cpus), None
        if file == "cpus_list":
            return cpu_list_text(text, self.cpus), None
        if file == "max_threshold_occupancy":
            return threshold_text(text), None
        if file == "mode":
            return mode_text(text), None
        masks = schemata_text(text)
        self.check_region(path, masks)
        return masks, None

    def check_region(self, path, masks):
        """Refuses a lock of more bytes than a kernel can allocate at once."""
        one = re.fullmatch(r"L3:\d+=(?:0[xX])?([0-9a-fA-F]+);?", masks.replace(" ", ""))
        if one and int(one[1], 16).bit_count() * self.machine.way_bytes > REGION_BYTES and self.mode(path) == LOCKING:
            (answer,) = self.recording.ask(f"write {path} {masks}")
            if answer.accepted:
                raise Unread(errno.E2BIG, "Requested region exceeds maximum size\n")

    def refuse(self, path, why):
        """Refuses with an error of a kernel's own."""
        file = os.path.basename(path)
        is_locked = file in LOCKED_WORDS and self.mode(path) == LOCKED
        self.status.add(f"{LOCKED_WORDS[file]}\n" if is_locked else why.words)
        raise Refused(errno.EINVAL if is_locked else why.number) from why

    # ---- after a command

    def answered(self, path, text, answer):
        """Adds what a kernel tells of a refusal."""
        if not answer.reason:
            return
        file = os.path.basename(path)
        words = kernel_words(answer.reason, file)
        if words and file == "tasks":
            words = re.sub(r"\d+", lambda number: self.writer_names.get(number[0], number[0]), words)
        if words:
            self.status.add(self.filled(words, unescaped(text)) + "\n")

    def filled(self, words, text):
        """What a kernel takes from the text or the machine."""
        fields = {"bits": self.machine.min, "name": resource_of(text), "text": number_that_is_none(text)}
        return re.sub(r"\{(\w+)\}", lambda field: str(fields[field[1]]), words)

    def shown(self, path, text):
        """What a kernel shows in place of a text that was read."""
        file = os.path.basename(path)
        if path == "/info/last_cmd_status":
            return self.status.text
        if file not in ("schemata", "size"):
            return text
        mode = self.mode(path)
        if mode == LOCKING:
            sizes = ";".join(f"{domain}=0" for domain in range(self.machine.domains))
            return "L3:uninitialized\n" if file == "schemata" else f"L3:{sizes}\n"
        if mode == LOCKED and file == "schemata":
            return re.sub("=0+", "=", text)
        return text


def resource_of(text):
    """The first name of a text of masks that is no resource."""
    names = (line.partition(":")[0].strip() for line in text.split("\n"))
    return next((name for name in names if name != "L3"), "")


def number_that_is_none(text):
    """The first mask of a text that is no number."""
    masks = (entry.partition("=")[2].strip() for line in text.split("\n") for entry in line.partition(":")[2].split(";"))
    return next((mask for mask in masks if not re.fullmatch(r"(0[xX])?[0-9a-fA-F]+", mask)), "")
