"""What is told of this version: its number, the commit, the kit, and the hash of each program."""
import argparse
import hashlib
import json
from pathlib import Path
import re
import subprocess

from resctrl_sim import programs

HERE = Path(__file__).resolve().parent
# In a clone this is its top. `make install` leaves what it knows of the sources beside this file.
TOP = HERE.parents[2]
RELEASE = HERE / "release.json"
UNKNOWN = "not known"


def found_in(path, pattern):
    """What a pattern finds in a file of the clone, or that it is not known."""
    try:
        found = re.search(pattern, path.read_text(encoding="utf-8"))
    except OSError:
        found = None
    return found[1] if found else UNKNOWN


def git(*words):
    try:
        done = subprocess.run(["git", "-C", TOP, *words], stdout=subprocess.PIPE, stderr=subprocess.DEVNULL, text=True, check=False)
    except OSError:
        return None
    return done.stdout.strip() if done.returncode == 0 else None


def commit():
    """The commit of the clone, and whether its files are other ones by now."""
    if git("rev-parse", "--show-toplevel") != str(TOP) or not (name := git("rev-parse", "HEAD")):
        return UNKNOWN
    return f"{name}, with changes" if git("status", "--porcelain", "--untracked-files=no") else name


def installed():
    """What `make install` has left, or None in a clone."""
    return json.loads(RELEASE.read_text(encoding="utf-8")) if RELEASE.exists() else None


def number():
    """The number of this version."""
    told = installed()
    return told["version"] if told else found_in(TOP / "docs" / "man" / "resctrl_sim.1", r'"Bikhnoun ([^"]*)"')


def release():
    """Version, commit and kit of the sources: as they were installed, or as the clone has them."""
    return installed() or {
        "version": number(),
        "commit": commit(),
        "kit": found_in(TOP / "README.md", r"`(rattle-kit[^`]*)`"),
    }


def hash_of(path):
    """The SHA-256 of a file, as sha256sum prints it."""
    with open(path, "rb") as file:
        return hashlib.sha256(file.read()).hexdigest()


def lines():
    told = release()
    yield f"bikhnoun {told['version']}"
    yield f"commit {told['commit']}"
    yield f"kit {told['kit']}"
    for name in programs.PROGRAMS:
        path = programs.find(name)
        yield f"{hash_of(path)}  {path}" if path else f"{'missing':64}  {name}"


def main(arguments, name):
    words = argparse.ArgumentParser(
        prog=name, description="Prints the version, the commit of its sources, the kit that they were proved with, and the SHA-256 of each program."
    )
    words.add_argument("--release", action="store_true", help="prints version, commit and kit as JSON, as `make install` keeps them")
    given = words.parse_args(arguments)
    print(json.dumps(release(), indent=1) if given.release else "\n".join(lines()))
    return 0
