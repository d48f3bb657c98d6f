"""Draws curves of misses by ways, with gnuplot (Debian: gnuplot-nox)."""
import subprocess
import sys
from typing import NamedTuple


class Curve(NamedTuple):
    """The curve of one group: its path, and for each number of ways the misses and whether the point has a ring."""

    path: str
    points: list[tuple[int, int, bool]]


def quoted(text):
    """A text as gnuplot reads it."""
    return "'" + text.replace("'", "''") + "'"


def data(at, curve):
    """The points of a curve: the ways, the misses, and again the misses if a ring is around them."""
    points = "".join(f"{ways} {misses} {misses if ring else 'NaN'}\n" for ways, misses, ring in curve.points)
    return f"$line{at} << END\n{points}END\n"


def draw(curves, ways_of, ring, file):
    """Writes a picture of these curves over the ways of `ways_of`. The legend says what a ring means, if there is one."""
    lines = [
        f"$line{at} using 1:2 with linespoints linecolor {at + 1} pointtype 7 title {quoted(curve.path)}, "
        f"$line{at} using 1:3 with points linecolor {at + 1} pointtype 6 pointsize 2 notitle"
        for at, curve in enumerate(curves)
    ]
    if any(has_ring for curve in curves for _, _, has_ring in curve.points):
        lines.append(f"keyentry with points linecolor 'black' pointtype 6 pointsize 2 title {quoted('ring: ' + ring)}")
    commands = f"""set terminal svg size 640,400 background 'white' noenhanced
set output {quoted(file)}
set xlabel {quoted('ways of ' + ways_of)}
set ylabel 'misses'
set yrange [0:*]
set xtics 1
set autoscale noextend
set offsets 0.5, 0.5, graph 0.05, graph 0.05
set key outside top center horizontal width 2
set grid
{"".join(data(at, curve) for at, curve in enumerate(curves))}plot {", ".join(lines)}
"""
    try:
        subprocess.run(["gnuplot"], input=commands, text=True, check=True)
    except FileNotFoundError:
        sys.exit("gnuplot is missing (Debian: apt-get install gnuplot-nox)")
