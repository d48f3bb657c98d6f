"""What the report of a script says of its last commands."""
from dataclasses import dataclass


@dataclass(frozen=True)
class Answer:
    """What a command answered: the name of an error, or None where it was accepted, the lines that it gave, and why it was refused."""

    error: str | None
    lines: tuple[str, ...] = ()
    reason: str | None = None

    @property
    def accepted(self):
        return self.error is None

    @property
    def text(self):
        return "".join(line + "\n" for line in self.lines)


def answer_of(line, lines):
    """The answer in the line of a command, whose result stands after its last colon."""
    result = line.rpartition(": ")[2]
    name, _, reason = result.partition(" ")
    return Answer(None if name == "ok" else name, tuple(lines), None if name == "ok" else reason)


def lines_from_the_end(report):
    """The lines of a report, the last one first. Of a long one that is asked for its last commands, only the end is looked at."""
    end = len(report) - 1
    while end > 0:
        start = report.rfind("\n", 0, end) + 1
        yield report[start:end]
        end = start - 1


def last_answers(report, count):
    """The answers of the last commands of a report, in order."""
    answers, given = [], []
    lines = lines_from_the_end(report)
    while len(answers) < count and (line := next(lines, None)) is not None:
        if line.startswith("|"):
            given.append(line[1:])
        elif line[0].isdigit():
            answers.append(answer_of(line, reversed(given)))
            given = []
    return answers[::-1]
