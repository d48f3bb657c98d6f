"""Reads scripts of `resctrl_cdp` and `resctrl_l2`, as docs/FORMAT.md says, and stops at the first line that is refused."""
from . import limits
from .guesses import check_bytes, no_machine, unknown_word
from .kinds import CDP, LEVELS
from .lackey import WHAT as BAD_TRACE, read_line
from .lines import Refused, lines_of, refuse, words_of
from .numbers import decimal
from .ops import USAGES, WHAT, check_count, check_task, read_access, read_cpu
from .pair_machine import read_machine
from .paths import check_length, check_path, read_text
from .reader import Fault, first_fault
from .tasks import Tasks

COMMANDS = 20_000
USES = 2_000_000
WORDS = ("machine", "tasks", "mkdir", "rmdir", "write", "read", "flush")
OWN = {CDP: ("trace",), LEVELS: ("access", "sweep")}
FILES = ("schemata", "mode", "tasks")
FIXED = ("cpus", "cpus_list", "info", "mode", "mon_data", "mon_groups", "schemata", "size", "tasks")


class PairScript:
    """What was read so far of a script of one kind."""

    def __init__(self, kind):
        self.kind = kind
        self.machine = None
        self.tasks = Tasks()
        self.commands = []
        self.uses = 0
        self.is_at_head = False
        self.trace_line = 0

    def read(self, line, at):
        """Reads one line."""
        check_bytes(line, at)
        if self.trace_line:
            self.read_trace_line(line)
            return
        words = words_of(line)
        if not words or words[0].text.startswith("#"):
            return
        word = words[0].text
        if self.machine is None and word != "machine":
            no_machine(words[0])
        if word not in (*WORDS, *OWN[self.kind]):
            self.unknown(words[0])
        is_at_head, self.is_at_head = self.is_at_head, word == "machine"
        if word in ("machine", "tasks"):
            self.read_head(words, at, is_at_head)
        elif word in ("access", "sweep"):
            self.use(words[0], read_access(line, words, self.machine, self.tasks))
        elif word == "trace":
            self.open_trace(line, words, at)
        else:
            self.read_command(line, words)
            self.command(words[0], at)

    def unknown(self, word):
        """Refuses a line whose first word begins none of this kind."""
        program = f"resctrl_{self.kind}"
        if word.text in ("phase", "thread", "order"):
            refuse("unknown word", word, f"a script of {program} has no `{word.text}`", "it has one thread: leave the line out")
        if word.text in USAGES or word.text == "trace":
            lines = ", ".join([*WORDS, *OWN[self.kind]])
            refuse("unknown word", word, f"a script of {program} has no `{word.text}`", f"its lines begin with {lines}")
        unknown_word(word)

    def read_head(self, words, at, is_at_head):
        """Reads the machine line, or the line of tasks after it."""
        if words[0].text == "tasks":
            if not is_at_head:
                refuse("out of place", words[0], "tasks stand directly after the machine line", "one line for all of them")
            self.tasks.read(words, at)
        elif self.machine is not None:
            refuse("out of place", words[0], "there is a machine line already", "one machine for each script")
        else:
            self.machine = read_machine(words, self.kind)

    def read_command(self, line, words):
        """Reads a line of a command."""
        kind = words[0].text
        if kind == "flush":
            check_count(line, words, "flush", 1, 1)
        elif kind == "write":
            check_count(line, words, USAGES["write"], 2, len(words))
            self.check_file(words[1])
            start = words[1].start + len(words[1].text) + 1
            read_text(line[start:], start)
            check_length(words[1])
        else:
            check_count(line, words, USAGES[kind], 2, 2)
            (self.check_file if kind == "read" else self.check_group)(words[1])
            check_length(words[1])

    def check_file(self, word):
        """Refuses a path that is no file of a group."""
        check_path(word)
        parts = word.text[1:].split("/")
        if len(word.text) <= limits.PATH_BYTES and (parts[-1] not in FILES or len(parts) > 2 or len(parts) == 2 and parts[0] in FIXED):
            refuse("bad path", word, f"`{word.text}` is no file of these scripts", "files are schemata, mode and tasks, of / or of /NAME")

    def check_group(self, word):
        """Refuses a path that is no group."""
        check_path(word)
        if len(word.text) <= limits.PATH_BYTES and (word.text == "/" or "/" in word.text[1:] or word.text[1:] in FIXED):
            refuse("bad path", word, f"`{word.text}` is no group of these scripts", "a group is /NAME; there are no monitor groups")

    def open_trace(self, line, words, at):
        """Reads the line before a trace."""
        check_count(line, words, "trace TASK CPU", 3, 3)
        task = decimal(WHAT, words[1], "TASK")
        read_cpu(words[2], self.machine)
        check_task(words[1], task, self.tasks)
        self.trace_line = at

    def read_trace_line(self, line):
        """Reads a line of a trace, or its end."""
        words = words_of(line)
        if len(words) == 1 and words[0].text == "end":
            self.trace_line = 0
        elif used := read_line(line):
            self.use(words[0], used[1])

    def command(self, word, at):
        """Counts a command, of which this is the line."""
        if len(self.commands) == COMMANDS:
            refuse("script too large", word, f"a command past the {COMMANDS} that a script has at most")
        self.commands.append(at)

    def use(self, word, count):
        """Counts uses."""
        self.uses += count
        if self.uses > USES:
            refuse("script too large", word, f"{self.uses} uses of a line by here; {USES} at most", "resctrl_plan curve takes longer traces")


def read_pair_script(data, kind):
    """The script of these bytes, or its first fault."""
    return read_into(PairScript(kind), data)


def read_into(script, data):
    """Reads these bytes into a script that is empty, and gives it, or its first fault."""
    if fault := first_fault(script, data):
        return fault
    if script.trace_line:
        because = f"the trace that line {script.trace_line} begins has no end"
        return Fault(len(lines_of(data)) + 1, "", Refused(BAD_TRACE, 0, 1, because, "a line `end` closes it"))
    return script
