"""Changes of the journals of a file by chance: numbers, lines, and the numbers of entries that are announced."""

FIRST_LINE = b"\njournal 1\n"


def changed_number(dice, lines, at):
    """A number of a line is one or two greater, or one less."""
    words = lines[at].split(b" ")
    places = [place for place, word in enumerate(words) if word.isdigit()]
    if places:
        place = dice.choice(places)
        words[place] = b"%d" % max(0, int(words[place]) + dice.choice((-1, 1, 1, 2)))
        lines[at] = b" ".join(words)


def moved_line(dice, lines, at):
    """A line is changed with one beside it."""
    other = min(len(lines) - 2, max(1, at + dice.choice((-2, -1, 1, 2))))
    lines[at], lines[other] = lines[other], lines[at]


def counted_line(dice, lines, at):
    """An entry is left out or doubled, and the number that its slice announces is mended."""
    head = next((line for line in range(at, 0, -1) if lines[line].startswith(b"slice ")), None)
    if head is None or head == at or lines[at] == b"end":
        del lines[at]
        return
    more = dice.choice((-1, 1))
    word, domain, own, count = lines[head].split(b" ")
    lines[head] = b" ".join((word, domain, own, b"%d" % (int(count) + more)))
    lines[at : at + 1] = [lines[at]] * (1 + more)


def copied_line(dice, lines, at):
    """A line stands in place of another."""
    lines[at] = dice.choice(lines[1:-1])


CHANGES = (changed_number, changed_number, changed_number, moved_line, counted_line, copied_line)


def changed(dice, data):
    """A file with one or two such changes in its journals."""
    start = data.index(FIRST_LINE) + 1
    lines = data[start:].split(b"\n")
    for _ in range(dice.choice((1, 1, 2))):
        if len(lines) > 3:
            dice.choice(CHANGES)(dice, lines, dice.randrange(1, len(lines) - 1))
    return data[:start] + b"\n".join(lines)
