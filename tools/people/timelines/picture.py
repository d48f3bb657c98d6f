"""The moments of a cache as a picture, by gnuplot."""
import subprocess
from typing import NamedTuple

from .table import letters

COLOURS = ("#4c72b0", "#dd8452", "#55a868", "#c44e52", "#8172b3", "#937860", "#da8bc3", "#8c8c8c", "#ccb974", "#64b5cd")
# About how many moments a picture has, beside those of commands.
POINTS = 120
MOST_LABELS = 12
# Pixels: the plots' width, what stands left and right of them, the heights of both, and those of a row and a letter of a label.
WIDTH, LEFT, RIGHT = 800, 72, 28
LINES_HEIGHT, WAYS_HEIGHT, HEAD, BETWEEN, FOOT = 230, 230, 34, 44, 58
ROW, LETTER = 15, 6
HEAD_COMMANDS = """set terminal svg size {width},{height} background 'white' font 'sans-serif,12'
set output '{file}'
set encoding utf8
set multiplot
set lmargin at screen {left}
set rmargin at screen {right}
set xrange [0:{end}]
set xtics nomirror
set ytics nomirror
set grid xtics
set style textbox opaque margins 0.2,0.2 fillcolor 'white' noborder
"""
LINES = """set tmargin at screen {top}
set bmargin at screen {bottom}
set label 1 '{title}' at screen {left}, screen {title_at} left noenhanced
set ylabel 'lines held'
set yrange [0:{lines}]
set ytics 0,{step},{places}
set format x ''
set key at screen {right}, screen {title_at} right center horizontal noenhanced
"""
WAYS = """set tmargin at screen {top}
set bmargin at screen {bottom}
unset label
unset arrow
set title 'in colour who holds the lines of each way, in outline whose mask has it'
set ylabel 'way'
set yrange [0:{ways}]
set ytics ({tics})
set format x '%g'
set xlabel 'entry of the history of the cache'
"""


def colour(number):
    return COLOURS[number % len(COLOURS)]


class Label(NamedTuple):
    """The words of a command, from where they begin, and in which row they stand, counted from the top."""

    at: int
    words: str
    row: int


def labels(moments, end):
    """The first commands, each below all labels that reach over its place, so that neither words nor dashed lines cross."""
    found = [moment for at, moment in enumerate(moments) if moment.command and (not at or moments[at - 1].command != moment.command)]
    placed, ends = [], []
    for moment in found[:MOST_LABELS]:
        words = moment.command.replace("\\", "/").replace("'", "")[:60]
        row = 1 + max((row for row, reached in enumerate(ends) if reached > moment.at), default=-1)
        ends[row:] = [moment.at + (len(words) + 2) * LETTER * end / WIDTH]
        placed.append(Label(moment.at, words, row))
    return placed, [moment.at for moment in found[MOST_LABELS:]]


def marks(placed, others, places, rows):
    """A dashed line for each command, up to its words."""
    for number, label in enumerate(placed, 2):
        height = places * (1 + 0.06 + ROW / LINES_HEIGHT * (rows - label.row - 0.5))
        yield f"set arrow from {label.at},0 to {label.at},{height} nohead dashtype 2 linecolor '#888888'"
        yield f"set label {number} '{label.words}' at {label.at},{height} left offset character 0.4,0 noenhanced font ',10' front boxed"
    for at in others:
        yield f"set arrow from {at},0 to {at},{places} nohead dashtype 2 linecolor '#888888'"


def data(moments, gids, sets):
    """The lines of each group, and of each way the part that the groups hold, one on the other."""
    for number, gid in enumerate(gids):
        yield f"$lines{number} << EOD"
        yield from (f"{moment.at} {moment.lines[gid]}" for moment in moments)
        yield "EOD"
        yield f"$ways{number} << EOD"
        for moment in moments:
            yield " ".join([str(moment.at), *(band(way, held, gids[:number], gid, sets) for way, held in enumerate(moment.ways))])
        yield "EOD"


def band(way, held, below, gid, sets):
    """Where the part of a group begins and ends in the band of a way."""
    low = way + 0.1 + 0.8 * sum(held[other] for other in below) / sets
    return f"{low:.3f} {low + 0.8 * held[gid] / sets:.3f}"


def outlines(moments, gids, end):
    """A frame around the ways of each group's mask for as long as it is in force."""
    for number, gid in enumerate(gids):
        inset = 0.02 + 0.05 * number
        for first, last, mask in periods(moments, gid, end):
            for low, high in runs(mask):
                corners = f"from {first},{low + inset} to {last},{high - inset}"
                yield f"set object rectangle {corners} fillstyle empty border linecolor '{colour(number)}' linewidth 1.5 front"


def periods(moments, gid, end):
    """The times for which a group has one mask."""
    begun, mask = 0, None
    for moment in moments:
        if moment.masks.get(gid) != mask:
            if mask:
                yield begun, moment.at, mask
            begun, mask = moment.at, moment.masks.get(gid)
    if mask:
        yield begun, end, mask


def runs(mask):
    """The runs of ways that stand side by side in a mask."""
    way = 0
    while mask >> way:
        low = way
        while mask >> way & 1:
            way += 1
        if way > low:
            yield low, way
        way += 1


class Sheet:
    """How large a picture is, and where its plots stand on it, in parts of its width and height from below."""

    def __init__(self, placed, end):
        self.rows = 1 + max((label.row for label in placed), default=-1)
        reached = max((label.at * WIDTH / end + (len(label.words) + 2) * LETTER for label in placed), default=0)
        self.width = LEFT + round(max(WIDTH + RIGHT, reached))
        self.lines_height = LINES_HEIGHT * 1.06 + self.rows * ROW
        self.height = round(HEAD + self.lines_height + BETWEEN + WAYS_HEIGHT + FOOT)

    def across(self, pixels):
        return f"{pixels / self.width:.4f}"

    def up(self, pixels):
        return f"{1 - pixels / self.height:.4f}"


def tic_step(places):
    """A step of about eight for the lines, with one digit that is not zero."""
    step = 1
    while places > 8 * step:
        step *= 2.5 if str(step)[0] == "2" else 2
    return int(step)


def draw(report, moments, machine, title, file):
    """Writes the picture. FileNotFoundError says that gnuplot is missing."""
    names = letters(report, moments)
    gids, places, end = list(names), machine.sets * machine.ways, moments[-1].at + 1
    placed, others = labels(moments, end)
    sheet = Sheet(placed, end)
    below = HEAD + sheet.lines_height
    sides = {"left": sheet.across(LEFT), "right": sheet.across(LEFT + WIDTH)}
    commands = [HEAD_COMMANDS.format(file=file, end=end, width=sheet.width, height=sheet.height, **sides), *data(moments, gids, machine.sets)]
    commands += [
        LINES.format(
            title=title, title_at=sheet.up(HEAD / 2), top=sheet.up(HEAD), bottom=sheet.up(below), places=places, step=tic_step(places),
            lines=places * sheet.lines_height / LINES_HEIGHT, **sides,
        ),
        *marks(placed, others, places, sheet.rows),
    ]
    curves = [f"$lines{n} using 1:2 with steps linewidth 2 linecolor '{colour(n)}' title '{names[gid][1]}'" for n, gid in enumerate(gids)]
    tics = ", ".join(f"'{way}' {way}.5" for way in range(machine.ways))
    ways = {"top": sheet.up(below + BETWEEN), "bottom": sheet.up(below + BETWEEN + WAYS_HEIGHT)}
    commands += ["plot " + ", ".join(curves), WAYS.format(ways=machine.ways, tics=tics, **ways), *outlines(moments, gids, end)]
    bands = [
        f"for [w=0:{machine.ways - 1}] $ways{n} using 1:(column(2+2*w)):(column(3+2*w)) with filledcurves linecolor '{colour(n)}' notitle"
        for n in range(len(gids))
    ]
    commands += ["plot " + ", ".join(bands), "unset multiplot"]
    subprocess.run(["gnuplot"], input="\n".join(commands) + "\n", text=True, check=True)
