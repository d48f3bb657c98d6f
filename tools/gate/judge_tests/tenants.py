"""Two tenants with ways of their own, each with a task that uses its lines twice, and hand edits of the journals of their play.

An edit finds its line by a pattern, and puts another in its place. It has the clause that is then false, a pattern that the place
named has to match, and pieces of the reason.
"""
from typing import NamedTuple

SCRIPT = b"""machine sets=4 ways=12 cpus=2
tasks 1 2
phase
thread
write /schemata L3:0=800
mkdir /a
write /a/schemata L3:0=f
write /a/tasks 1
write /a/mode exclusive
mkdir /b
write /b/schemata L3:0=7f0
write /b/tasks 2
write /b/mode exclusive
flush
phase
thread
sweep 1 0 0 8 64
sweep 1 0 0 8 64
thread
sweep 2 1 0x10000 8 64
sweep 2 1 0x10000 8 64
thread
write /b/schemata L3:0=7ff
mkdir /a/mon_groups/m
clflush 0x20000
read /a/mon_data/mon_L3_00/llc_occupancy
phase
thread
flush 0
"""


# Each group uses 8 lines twice, which fit into its ways of 4 sets: the first uses miss, and the second hit.
WINDOWS = (
    "window 0.0 group 1 ways 4 from 5: accesses 16 hits 8 covered 16 hits 8 private 8",
    "window 0.0 group 2 ways 7 from 5: accesses 16 hits 8 covered 16 hits 8 private 8",
)


class Edit(NamedTuple):
    """What is done to the lines that match a pattern, the answer, and what is said of the place, which may be another line."""

    what: str
    pattern: str
    line: str
    answer: str
    place: str
    reason: str
    is_far: bool = False


# In the journals /a is group 1 with RMID 1 and mask 15, and /b group 2 with RMID 2 and mask 2032.
EDITS = (
    Edit("A's hit is said to be a miss", r"(access 1 8 10 1 1 15 0) 1 (\d+)", r"\1 0 \2", "no D11", "access 1.8", "so it hits"),
    Edit("A's miss is said to be a hit", r"(access 1 0 10 1 1 15 0) 0 (\d+)", r"\1 1 \2", "no D11", "access 1.0", "so it misses"),
    Edit("A fills another of its ways", r"(access 1 0 10 1 1 15 0 0) 0", r"\1 1", "no D11", "access 1.0", "way 0 is the lowest of mask f"),
    Edit("B fills a way of A", r"(access 2 0 10 2 2 2032 1024 0) 4", r"\1 0", "no D11", "access 2.0", "it fills way 4, and not way 0"),
    Edit("A hits in another way", r"(access 1 8 10 1 1 15 0 1) 0", r"\1 1", "no D11", "access 1.8", "it hits in way 0, and not in way 1"),
    Edit("an epoch of before the flush", r"access 1 8 10 (.*)", r"access 1 8 9 \1", "no D11", "access 1.8", "the floor to 10"),
    Edit("a look counts less", r"(look 3 3 \d+ 1) 8", r"\1 7", "no D11", "look 3.3", "it counts 7, and 8 are there"),
    Edit("a drop of a line that is nowhere", r"(drop 3 2 \d+ 2048) -", r"\1 3", "no D11", "drop 3.2", "it is in no way"),
    Edit("the mask of B is said to be 7ff", r"access 2 8 10 2 2 2032 (.*)", r"access 2 8 10 2 2 2047 \1", "no D13.1", "access 2.8", "has mask 7f0, and not 7ff"),
    Edit("B's access is said to be A's", r"access 2 8 10 2 2 (.*)", r"access 2 8 10 1 2 \1", "no D13.1", "access 2.8", "has group 2, and not 1"),
    Edit("B's access has A's RMID", r"access 2 8 10 2 2 (.*)", r"access 2 8 10 2 1 \1", "no D13.1", "access 2.8", "has RMID 2, and not 1"),
    Edit("an epoch that the tree never had", r"access 2 15 10 (.*)", r"access 2 15 99 \1", "no D13.1", "access 2.15", "taken 15 commands in all"),
    Edit("the refused grab is said to be accepted", r"tree 3 0 20 0 0", "tree 3 0 0 0 0", "no D9", "tree entry .* 3.0", "overlaps with exclusive group"),
    Edit("a mkdir is said to be refused", r"tree 0 1 0 0 0", "tree 0 1 3 0 0", "no D9", "tree entry 1 .* 0.1", "answers `ok`, and not `EEXIST file exists`"),
    Edit("the script gives A another mask", r"write /a/schemata L3:0=f", "write /a/schemata L3:0=1f", "no D9", "tree entry 6 .* 0.6", "answers `EINVAL overlaps with exclusive group`, and not `ok`", True),
    Edit("the script leaves A shareable", r"write /a/mode exclusive", "write /a/mode shareable", "no D9", "tree entry 10 .* 3.0", "answers `EINVAL overlaps with other group`", True),
    Edit("the script has a command more", r"flush 0", "flush 0\ntick", "no D15.1", "op 4.1 ", "no line for it", True),
    Edit("the tree takes a command twice", r"(tree 4 0 0 0 0)", r"\1\n\1", "no D15.1", "tree entry 15 .* 4.0", "taken it before", True),
    Edit("the reply counts less than the looks", r"tree 3 3 0 0 2 8 0", "tree 3 3 0 0 2 7 0", "no D14", "tree entry .* 3.3", "it was given 7 lines of RMID 1"),
    Edit("the flush is said to be a raise", r"flush 0 9 10", "raise 0 9 10", "no D13.2", "raise 0.9", "owes slice 0.0 flush of epoch 10"),
    Edit("an access is said to be to another line", r"(access 1 8 10 1 1 15) 0 (.*)", r"\1 4 \2", "no D11", "access 1.8 of line 4", "it hits in way 1, and not in way 0"),
    Edit("two commands of the tree are swapped", r"(tree 0 2 .*)\n(tree 0 3 .*)", r"\2\n\1", "no D13.2", "raise 0.2", "owes slice 0.0 raise of epoch 4, and not raise of epoch 3", True),
    Edit("the flush has no entry", r"slice 0 0 42\n((?:.*\n)*?)flush 0 9 10\n", r"slice 0 0 41\n\1", "no D15.2", "op 0.9 ", "slice 0.0 has no entry of it for flush of epoch 10", True),
    Edit("an access has no entry", r"slice 0 0 42\n((?:.*\n)*?)access 2 15 10 .*\n", r"slice 0 0 41\n\1", "no D15.2", "op 2.15 ", "slice 0.0 has no entry of it", True),
    Edit("two accesses of A are swapped", r"(access 1 3 10 .*)\n(access 1 4 10 .*)", r"\2\n\1", "no D15.4", "access 1.3", "stands behind 1.4", True),
    Edit("the lines end with a carriage return too", r"(access 1 8 10 .*)", "\\1\r", "line", "line", "a carriage return at the end"),
    Edit("a way of A is said to be of A in decimal", r"(access 1 8 10 1 1) 15 (.*)", r"\1 f \2", "line", "line", "masks are decimal here"),
    Edit("an entry is announced too many", r"slice 0 0 42", "slice 0 0 43", "line", "line", "entry 42 of the 43"),
    Edit("a blank at the end", r"(access 1 8 10 .*)", r"\1 ", "line", "line", "none at the ends"),
    Edit("the last line is cut", r"end\n", "end", "line", "line", "no newline"),
)

# The places of the examples of docs/JOURNALS.md, one for each clause.
PLACES = {
    "D15.1": "op 2.0 (line 15 of the script)", "D9": "tree entry 0 (line 17)", "D11": "slice 0.0 entry 2 (line 23)",
    "D13.1": "slice 0.0 entry 2 (line 23)", "D13.2": "slice 0.0 entry 5 (line 26)", "D13.3": "slice 0.0 entry 1 (line 22)",
    "D14": "tree entry 1 (line 18)", "D15.2": "op 0.2 (line 8 of the script)", "D15.3": "op 2.0 (line 15 of the script)",
    "D15.4": "slice 0.0 entry 3 (line 24)",
}
