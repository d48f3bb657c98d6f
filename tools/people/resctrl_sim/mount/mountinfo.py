"""Mounts as a process finds them in files of its own, /proc/self/mountinfo and /proc/self/mounts: there the tree is of type `resctrl`.

Each process has its own files, so they are covered for one process at a time, before its program begins: for the command of --run, and
for each run of a program that is known to look there.
"""
import os
import shlex
import shutil

from .covering import bind, file_of, lines_of, mount

READERS = ("runc",)
NAMES = ("mountinfo", "mounts")


def prepare(folder, tree):
    """Makes what is shown as mountinfo: as it is now, with another type of the tree. What is shown as mounts is there already."""
    file_of(folder / "mountinfo", [of_kind(line, tree) for line in lines_of("self/mountinfo")])


def of_kind(line, tree):
    """A line of mountinfo, in which the tree is one of a kernel's."""
    place, dash, _ = line.partition(" - ")
    return f"{place}{dash}resctrl resctrl rw" if place.split()[4] == tree else line


def cover_own(folder):
    """Covers the files of this process. Where that is refused, it sees them as they are."""
    for name in NAMES:
        bind(folder / name, f"/proc/self/{name}")


def cover_program(folder, name):
    """Puts in place of a program, if it is here, a script that covers its own files first. Gives what is to be unmounted, or None."""
    path = shutil.which(name)
    if not path:
        return None
    path, program, script = os.path.realpath(path), folder / name, folder / f"{name}.sh"
    program.touch()
    mount("--bind", path, program)
    binds = [f'mount --bind {shlex.quote(str(folder / one))} "/proc/$$/{one}"' for one in NAMES]
    file_of(script, ["#!/bin/sh", *binds, f'exec {shlex.quote(str(program))} "$@"'])
    script.chmod(0o755)
    mount("--bind", script, path)
    return program
