"""A recording: one script, which grows by an op for each operation of a client.

After a script of several threads it goes on in a phase of its own, so that what follows is played after all of the script, whatever its
`order` lines say.
"""
from .answers import last_answers


class Unrecordable(OSError):
    """What a client does cannot be recorded, so it is not done."""


def head_of(machine, tasks):
    """The lines of a script before its first op."""
    declared = [f"tasks {tasks}"] if tasks else []
    return [f"machine {machine}".rstrip(), *declared, "phase", "thread"]


def script_of(lines):
    """The text of a script's lines."""
    return "\n".join(lines) + "\n"


class Recording:
    """The script so far. It is played at once, so that a bad line is told before anything is mounted."""

    def __init__(self, program, head, record):
        self.program = program
        self.record = record
        self.head = head
        self.ops = []
        # How many operations were kept or took the place of one, by which it is seen that one came between.
        self.count = 0
        self.report = program.play(self.script())

    def script(self, more=()):
        """The script so far, with more ops at its end."""
        return script_of([*self.head, *self.ops, *more])

    def ask(self, *ops):
        """What these commands would answer now. None of them is kept."""
        return last_answers(self.program.play(self.script(ops)), len(ops))

    def keep(self, ops):
        """Plays these ops and keeps them, unless the program says that they make no script, or they cannot be recorded."""
        report = self.program.play(self.script(ops))
        self.record_by(self.record.add, ops)
        self.report = report
        self.ops += ops
        self.count += 1

    def do(self, op):
        """The answer of a command that is kept."""
        self.keep([op])
        return last_answers(self.report, 1)[0]

    def do_again(self, op):
        """The answer of a command that takes the place of the last one."""
        script = script_of([*self.head, *self.ops[:-1], op])
        report = self.program.play(script)
        self.record_by(self.record.replace, script)
        self.report = report
        self.ops[-1] = op
        self.count += 1
        return last_answers(self.report, 1)[0]

    def declare(self, tasks):
        """Declares more tasks, as if they had been declared before the first command."""
        if tasks:
            at = next(at for at, line in enumerate(self.head) if line.split()[:1] == ["phase"])
            head = [*self.head[:at], f"tasks {' '.join(map(str, tasks))}", *self.head[at:]]
            self.record_by(self.record.replace, script_of([*head, *self.ops]))
            self.head = head

    def record_by(self, write, what):
        """Records, or raises Unrecordable: then nothing of it is recorded, and nothing may be kept."""
        try:
            write(what)
        except OSError as why:
            raise Unrecordable(why.errno, why.strerror) from why

    def declared(self):
        """The tasks that are declared, as pairs of a first and a last id."""
        words = [word for line in self.head if line.split()[:1] == ["tasks"] for word in line.split()[1:]]
        return [(int(first), int(last or first)) for first, _, last in (word.partition("-") for word in words)]
