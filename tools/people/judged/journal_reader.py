"""Reads journals line by line, and stops at the first bad line."""
from .journal_lines import BadLine, Entry, FIELDS, Journals, LIMITS, PATTERNS, SLICE, TREE, TreeEntry, against_entry, form, is_access, within

HEAD = ("thread", "op", "reason", "argument", "count")
TREE_FIELDS = "tree T O W A N COUNT .."


class Reader:
    """Reads the lines after `journal 1`; so many lines of the file stand before the first, and this after the last newline."""

    def __init__(self, machine, weight, lines, before, rest):
        self.machine = machine
        self.weight = weight
        self.lines = lines
        self.before = before
        self.rest = rest
        self.masks = set()
        self.at = 0

    def text(self):
        """The next line; after the last there is none."""
        return self.lines[self.at] if self.at < len(self.lines) else ""

    @property
    def is_over(self):
        """Whether no whole line is left."""
        return self.at >= len(self.lines)

    def fail(self, because):
        """Stops at the next line."""
        raise BadLine(self.before + self.at + 1, self.rest if self.is_over else self.text(), because)

    def wanted(self, what):
        """Stops at the next line, where something else should stand."""
        text = self.text()
        if self.is_over:
            self.fail("the last line has no newline" if self.rest else f"the file ends before {what}")
        if text.endswith("\r"):
            self.fail("a carriage return at the end: journals have lines that end with a newline alone (`sed 's/\\r$//'` makes them so)")
        word = text.split(" ")[0]
        if word in PATTERNS or word in ("tree", "slice"):
            names = FIELDS.get(word, ("domain", "slice", "entries") if word == "slice" else None)
            pattern = PATTERNS.get(word, SLICE if word == "slice" else TREE)
            self.fail(form(word, text, names) if not pattern.fullmatch(text) else f"{what} should stand here")
        self.fail(f"{what} should stand here")

    def read(self):
        """The journals."""
        found = Journals(tree_line=self.before + 1)
        while line := TREE.fullmatch(self.text()):
            found.tree.append(self.command([int(word) for word in line[1].split(" ")[1:]]))
            self.at += 1
        for number in range(self.machine.domains * self.machine.slices):
            self.slice(found, number)
        if self.text() != "end":
            self.wanted("the line `end`" if found.slices else "a slice")
        self.at += 1
        if not self.is_over or self.rest:
            self.fail("something follows the line `end`")
        return found

    def command(self, numbers):
        """A line of the tree."""
        if len(numbers) < 5:
            self.fail(f"it has too few numbers: {TREE_FIELDS}")
        thread, op, reason, argument, count = numbers[:5]
        if bad := within(HEAD, numbers[:5]):
            self.fail(bad)
        if not reason and argument:
            self.fail("an accepted command has no argument: after W 0 stands A 0")
        if count != len(numbers) - 5:
            self.fail(f"{count} counts are announced, and {len(numbers) - 5} follow")
        if count > self.weight:
            self.fail(f"{count} counts are more than the ops of the script weigh, {self.weight}")
        if any(number >= LIMITS["count"] for number in numbers[5:]):
            self.fail("a count is not below 2^64")
        return TreeEntry(thread, op, (reason, argument), tuple(numbers[5:]))

    def slice(self, found, number):
        """The line of a slice, and its entries."""
        domain, own = divmod(number, self.machine.slices)
        line = SLICE.fullmatch(self.text())
        if not line or (int(line[1]), int(line[2])) != (domain, own):
            self.wanted(f"`slice {domain} {own} N`" + ("" if number else ", or one more line `tree`,"))
        count = int(line[3])
        if count > self.weight:
            self.fail(f"{count} entries are more than the ops of the script weigh, {self.weight}")
        self.at += 1
        found.slice_lines.append(self.before + self.at + 1)
        found.slices.append([self.entry(own, count, number) for number in range(count)])

    def entry(self, own, count, number):
        """An entry of a slice."""
        text = self.text()
        pattern = PATTERNS.get(text[: text.find(" ")])
        line = pattern.fullmatch(text) if pattern else None
        if not line:
            self.wanted(f"entry {number} of the {count} that are announced")
        kind = text[: text.find(" ")]
        if kind == "access":
            numbers = tuple(map(int, line.groups()))
            if is_access(self.machine, self.masks, own, numbers):
                self.at += 1
                return Entry(kind, *numbers[:3], numbers[3:])
        else:
            numbers = tuple([None if word == "-" else int(word) for word in line.groups()])
        if bad := against_entry(self.machine, own, kind, numbers):
            self.fail(bad)
        if kind == "access":
            self.masks.add(numbers[5])
        self.at += 1
        return Entry(kind, *numbers[:3], numbers[3:])
