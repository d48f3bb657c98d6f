"""The lines of tasks."""
import re

from .limits import LAST_TASK, TASKS
from .lines import refuse
from .numbers import suggestion, value_of

WHAT = "bad tasks line"


class Tasks:
    """The tasks that are declared so far, as ranges with the line of each."""

    def __init__(self):
        self.ranges = []
        self.declared = set()

    def has(self, task):
        return task in self.declared

    def text(self):
        """The ranges as a tasks line has them."""
        shown = [str(first) if first == last else f"{first}-{last}" for first, last, _ in sorted(self.ranges)]
        return " ".join(shown[:6] + ["..."] * (len(shown) > 6)) or "none"

    def read(self, words, line):
        """Declares the tasks of a line, or none of them."""
        if len(words) == 1:
            refuse(WHAT, words[0], "no task follows", "tasks 1-4 7")
        ranges = [(*read_range(word), word) for word in words[1:]]
        self.check_once(ranges, line)
        count = sum(last - first + 1 for first, last, _ in [*self.ranges, *ranges])
        if count > TASKS:
            refuse("script too large", words[-1], f"{count} tasks are declared by here; {TASKS} at most")
        self.ranges += [(first, last, line) for first, last, _ in ranges]
        for first, last, _ in ranges:
            self.declared.update(range(first, last + 1))

    def check_once(self, ranges, line):
        """Refuses a task that is declared twice."""
        seen = [(first, last, at, None) for first, last, at in self.ranges]
        seen += [(first, last, line, word) for first, last, word in ranges]
        seen.sort(key=lambda one: one[:2])
        for before, after in zip(seen, seen[1:]):
            if after[0] <= before[1]:
                word = after[3] or before[3]
                other = before[2] if word is after[3] else after[2]
                refuse(WHAT, word, f"task {after[0]} is declared twice", f"it stands in line {other} too")


def read_range(word):
    """The first and the last task of a word."""
    found = re.fullmatch(r"([0-9]+)(?:-([0-9]+))?", word.text)
    if not found:
        refuse(WHAT, word, f"`{word.text}` is neither a task nor a range of tasks", range_hint(word.text))
    first = value_of(found[1])
    last = first if found[2] is None else value_of(found[2])
    if first < 1:
        refuse(WHAT, word, "there is no task 0", "tasks are numbered from 1")
    if first > last:
        refuse(WHAT, word, f"the range `{word.text}` is the wrong way round", f"{last}-{first}")
    if last > LAST_TASK:
        refuse(WHAT, word, f"task {last} is past the last, {LAST_TASK}")
    return first, last


def range_hint(text):
    """What was probably meant by a word that is no range."""
    if re.fullmatch(r"[0-9,-]+,[0-9,-]*|,+", text):
        return "words are separated by blanks: " + " ".join(re.findall("[0-9-]+", text))
    if text.startswith("-") or text.endswith("-") or ".." in text:
        return "a range is A-B, without blanks"
    return suggestion(text, False)
