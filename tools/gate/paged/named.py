"""The files of crates that a page names, and those that are not there."""
import re

from . import TOP, text_of

# A crate and a path below it, in which braces stand for several paths: `tree_core/src/tree/`, `rc_base/specs/{Replies,Reasons}`.
NAMED = re.compile(r"`([a-z][a-z0-9_]*)/((?:src|specs|proofs|must-fail|edits)\b[^`\s]*)`")
ENDINGS = ("", ".rt", ".antt")


def without_braces(path):
    """The paths that a path with at most one pair of braces stands for."""
    found = re.fullmatch(r"([^{}]*)\{([^{}]*)\}([^{}]*)", path)
    if not found:
        return [path]
    before, names, after = found.groups()
    return [before + name.strip() + after for name in names.split(",")]


def missing_files(page):
    """The paths below crates that a page names and that are neither a file nor a folder. The ending may be left out."""
    for crate, path in NAMED.findall(text_of(page)):
        if (TOP / "crates" / crate).is_dir():
            for one in without_braces(path):
                if not any((TOP / "crates" / crate / (one + ending)).exists() for ending in ENDINGS):
                    yield f"{crate}/{one}"
