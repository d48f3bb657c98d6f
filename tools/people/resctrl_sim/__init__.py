"""Bikhnoun from Python: plays scripts, and mounts the simulated resctrl tree as a directory.

    from resctrl_sim import Machine, mounted, play

    report = play(["machine sets=1 ways=4", "tasks 1", "phase", "thread", "sweep 1 0 0 5 64"])
    print(report.group("/").miss_rate)

    with mounted(Machine(domains=2, ways=12), tasks="1000-1003") as tree:
        print((tree / "schemata").read_text())
"""
from .machine import Machine
from .mounting import NotMounted, mounted
from .program import Broken, Checker, NoScript, Program, play
from .report import Command, Domain, Group, NotAsked, Report, Slice, Total, Window

__all__ = [
    "Broken",
    "Checker",
    "Command",
    "Domain",
    "Group",
    "Machine",
    "NoScript",
    "NotAsked",
    "NotMounted",
    "Program",
    "Report",
    "Slice",
    "Total",
    "Window",
    "mounted",
    "play",
]
