"""The curves of a plan: the misses of each group by its ways, with a ring at the number of ways that the plan gives it. Groups without
accesses are left out."""
import re
import sys

from .picture import Curve, draw

HEAD = re.compile(r"domain (\d+) group \d+ (\S+):")
COUNTS = re.compile(r"ways (\d+): accesses (\d+) hits \d+ misses (\d+)")
MASKS = re.compile(r"write (\S*)/schemata L3:(\S+)")


def planned_ways(lines, domain):
    """How many ways the plan gives each group in a domain."""
    found = [MASKS.fullmatch(line) for line in lines]
    masks = {one[1] or "/": dict(entry.split("=") for entry in one[2].split(";")) for one in found if one}
    return {path: int(by_domain[str(domain)], 16).bit_count() for path, by_domain in masks.items()}


def curves_of(lines, domain):
    """The curves of the groups that have accesses in a domain."""
    planned, curves, path = planned_ways(lines, domain), {}, None
    for line in lines:
        if head := HEAD.fullmatch(line):
            path = head[2] if int(head[1]) == domain else None
        elif (counts := COUNTS.fullmatch(line)) and path and int(counts[2]):
            ways, misses = int(counts[1]), int(counts[3])
            curves.setdefault(path, []).append((ways, misses, planned.get(path) == ways))
    return [Curve(path, points) for path, points in curves.items()]


def draw_plan(name, file, domain):
    """Draws what `divide` printed into a file. Returns the exit status."""
    if name == "-":
        text = sys.stdin.read()
    else:
        with open(name, encoding="ascii") as plan:
            text = plan.read()
    curves = curves_of(text.splitlines(), domain)
    if not curves:
        sys.exit(f"bikhnoun plan draw: the plan has no group with accesses in domain {domain}")
    draw(curves, "a group", "as planned", file)
    return 0
