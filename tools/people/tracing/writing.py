"""Writes a script, and stops before it is larger than a script may be; or a trace, which has no limit."""
from explained.kinds import CDP, LEVELS, SIM, TRACE

from . import LINE_BYTES

# What is left to the commands of a head.
COMMANDS_WEIGHT = 100_000
MOST_BYTES = 67_108_864


class Script:
    """A script that is written: its head, and then accesses, of which a run by one task to one line is one sweep."""

    def __init__(self, out, head, most):
        self.out = out
        self.most = most
        self.bytes = 0
        self.accesses = 0
        self.has_no_room = False
        self.why_full = None
        self.task = None
        self.line = None
        self.count = 0
        self.put(head)

    def put(self, text, end=""):
        """Writes a text where there is room for it, and for an end after it, and says whether it did. After one that had none, none is
        written.
        """
        if self.has_no_room or self.bytes + len(text) + len(end) > MOST_BYTES:
            self.has_no_room = True
            self.why_full = f"{MOST_BYTES} bytes, the most that a script may have"
            return False
        self.out.write(text)
        self.bytes += len(text)
        return True

    def end_run(self):
        """Writes the run that has come so far."""
        address = self.line * LINE_BYTES if self.count else 0
        if self.count == 1 and self.put(f"access {self.task} 0 {address}\n"):
            self.accesses += 1
        elif self.count > 1 and self.put(f"sweep {self.task} 0 {address} {self.count} 0\n"):
            self.accesses += self.count
        self.count = 0

    def access(self, task, line, is_code=False):
        """Adds an access, and says whether the script goes on."""
        if self.accesses + self.count == self.most:
            self.why_full = f"{self.most} accesses"
            return False
        if task != self.task or line != self.line:
            self.end_run()
            self.task, self.line = task, line
        self.count += 1
        return self.why_full is None


class Traces(Script):
    """A script of code and data: the uses stand in traces, as lackey has them, each between `trace` and `end`."""

    END = "end\n"

    def begun(self, task):
        """The lines between the uses of the task before and those of this one."""
        return f"{self.END if self.task is not None else ''}trace {task} 0\n" if task != self.task else ""

    def access(self, task, line, is_code=False):
        """Adds a use, and says whether the script goes on."""
        if self.accesses == self.most:
            self.why_full = f"{self.most} uses"
            return False
        if not self.put(f"{self.begun(task)}{'I ' if is_code else ' L'} {line * LINE_BYTES:x},{LINE_BYTES}\n", self.END):
            return False
        self.task = task
        self.accesses += 1
        return True

    def end_run(self):
        """Ends the last trace."""
        if self.task is not None:
            self.out.write(self.END)
            self.bytes += len(self.END)
            self.task = None


class Trace(Traces):
    """A trace alone, which has no tasks and no limit."""

    END = ""

    def put(self, text, end=""):
        self.out.write(text)
        self.bytes += len(text)
        return True

    def begun(self, task):
        return ""


# What can be written: by which of these, with how many uses at most, and the machine where none is given.
SMALL = 2_000_000
WRITERS = {
    SIM: (Script, 4_000_000, "sets=1024 ways=16"),
    CDP: (Traces, SMALL, "sets=1024 ways=16"),
    LEVELS: (Script, SMALL, "sets=1024 ways=16 l2_sets=512 l2_ways=8"),
    TRACE: (Trace, None, None),
}
