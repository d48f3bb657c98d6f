"""The commands that pages, manual pages, examples and tools name, and those that cannot be run as they stand there."""
import os
import re
from pathlib import Path

from . import TOP, pages

# A path below tools/ or examples/, from the top of the repository, and what `make` or an installed tool is asked for in code.
NAMED = re.compile(r"(?<![\w/.<{$-])((?:tools|examples)/[\w./-]*\w)")
MADE = re.compile(r"(?:`|^\$ )make ([a-z]+)|^make ([a-z]+)$", re.M)
INSTALLED = re.compile(r"\bresctrl_sim-[a-z]+\b")
# What a path ends with where it stands for several, or for one that is made there.
OPEN = re.compile(r"\.(?:report|script|journal)$|[A-Z]{3}")


def places():
    """The files that name commands, by their paths in the repository."""
    more = [path for pattern in ("docs/man/*.1", "examples/*.script", "tools/**/*", "Makefile", "crates.txt") for path in TOP.glob(pattern)]
    texts = [str(path.relative_to(TOP)) for path in more if path.is_file() and path.suffix not in (".pyc", ".png")]
    return sorted({*pages(), *texts})


def is_program(path):
    """Whether a file says on its first line what runs it."""
    with open(path, "rb") as file:
        return file.read(2) == b"#!"


def cannot_be_run(path):
    """Why a path that is named as a tool does not stand there to be run, or None. Folders, modules and data need not."""
    there = TOP / path
    if not there.exists():
        return None if OPEN.search(path) or there.with_suffix(".script").exists() else f"{path} is not there"
    if there.is_file() and is_program(there) and not os.access(there, os.X_OK):
        return f"{path} may not be run: chmod +x {path}"
    return None


def wrong_modes():
    """Files of tools/ that begin with #! and may not be run, or may be run and do not begin so."""
    for path in sorted(Path(TOP, "tools").rglob("*")):
        if path.is_file() and "__pycache__" not in path.parts and is_program(path) != os.access(path, os.X_OK):
            yield f"{path.relative_to(TOP)}: {'may not be run' if is_program(path) else 'may be run, and has no #! line'}"


def uncalled(bin_folder):
    """Each place with a command that it names and that cannot be run as it stands there."""
    targets = set(re.findall(r"^([a-z]+):", (TOP / "Makefile").read_text(encoding="utf-8"), re.M))
    for place in places():
        text = (TOP / place).read_text(encoding="utf-8", errors="replace")
        for path in sorted(set(NAMED.findall(text))):
            if why := cannot_be_run(path):
                yield place, why
        for name in sorted(set(INSTALLED.findall(text))):
            if not os.access(Path(bin_folder, name), os.X_OK):
                yield place, f"{name} is not installed"
        if place.endswith(".md"):
            for target in sorted({one or other for one, other in MADE.findall(text)} - targets):
                yield place, f"there is no `make {target}`"
