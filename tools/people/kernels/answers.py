"""The answers of a kernel.

What a kernel answered to the probes is kept, with its version. So another kernel that answers differently is noticed, also where a rule
would cover it.
"""
from dataclasses import dataclass
import errno
import re

# The writes by which a kernel begins `last_cmd_status` anew, unless the file could not be opened.
RESETS = re.compile(r"write \S*/(schemata|mode|tasks)( |$)")
NOT_OPENED = {errno.ENOENT, errno.EACCES, errno.ENOTDIR, errno.EISDIR}
OK = "ok\n"
# The room of a status, and the longest reason that is not cut from a text.
STATUS_BYTES = 512
LONGEST_REASON = 80
FULL = "(last_cmd_status is full)"


@dataclass(frozen=True)
class Answer:
    """What a kernel answered to a command: an error's number or 0, the text of a read or a list, `last_cmd_status` after it, and what
    of that this command has added."""

    error: int
    text: str
    status: str
    told: str

    @property
    def error_name(self):
        """The name of the error, or `ok`."""
        return errno.errorcode.get(self.error, str(self.error)) if self.error else "ok"

    @property
    def is_cut(self):
        """Whether a reason may have had no room."""
        return len(self.status) > STATUS_BYTES - LONGEST_REASON and not self.told.endswith("\n")

    @property
    def shown(self):
        """The error with what was told of it."""
        words = self.told.rstrip().replace("\n", " / ") if self.error else ""
        full = FULL if self.error and self.is_cut else ""
        return " ".join(filter(None, (self.error_name, words, full)))

    @property
    def lines(self):
        return self.text.removesuffix("\n").split("\n") if self.text else []


def answers_of(words, raw, *, has_task_lists=True):
    """The answers to commands, of their errors, texts and statuses in order. Where there are no words, it was no command of a script.

    A kernel without lists of tasks reads the number before it begins the status anew."""
    answers, before = [], OK
    for command, (error, text, status) in zip(words, raw):
        file = file_of_reset(command or "") if error not in NOT_OPENED else None
        is_unread = file == "tasks" and not has_task_lists and error == errno.EINVAL and status == before
        answers.append(Answer(error, text, status, told(status, OK if file and not is_unread else before)))
        before = status
    return answers


def file_of_reset(command):
    """The file, if a write of it begins the status anew, or None."""
    found = RESETS.match(command)
    return found[1] if found else None


def told(status, before):
    """What was added to a status."""
    if status == OK or status == before:
        return ""
    return status.removeprefix(before) if before != OK else status
