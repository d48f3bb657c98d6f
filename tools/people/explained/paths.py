"""Paths and texts: when they are well formed, and which file a path names where that has a weight."""
import re

from .limits import NAME_BYTES, PATH_BYTES, TEXT_BYTES
from .lines import Refused, refuse

# The fixed entries of `/`, which are no groups.
FIXED = "info|mon_groups|mon_data|schemata|size|mode|tasks|cpus|cpus_list"
GROUP = rf"(/(?!({FIXED})(/|$))[^/]+)?"


def check_path(word):
    """Refuses a path that is not well formed. One that is too long is not looked at here."""
    text = word.text
    if len(text) > PATH_BYTES or text == "/":
        return
    if not text.startswith("/"):
        refuse("bad path", word, f"`{text}` does not begin with a slash", f"a path begins at the root of the tree: /{text}")
    start = word.start + 1
    for name in text[1:].split("/"):
        check_name(name, start, text)
        start += len(name) + 1


def check_name(name, start, path):
    """Refuses a path for one of its names."""
    if not name:
        hint = re.sub("/+", "/", path).rstrip("/") or "/"
        raise Refused("bad path", start - 1, 1, "no name stands after this slash", hint)
    if name in (".", ".."):
        raise Refused("bad path", start, len(name), f"`{name}` is not a name", "paths are written from the root on")
    if len(name) > NAME_BYTES:
        raise Refused("bad path", start, len(name), f"a name of {len(name)} bytes; {NAME_BYTES} at most")


def check_length(word):
    """Refuses a path that is too long."""
    if len(word.text) > PATH_BYTES:
        refuse("script too large", word, f"a path of {len(word.text)} bytes; {PATH_BYTES} at most")


def read_text(text, start):
    """The bytes that a written text stands for."""
    at = text.find("\\")
    while at >= 0:
        if text[at + 1 : at + 2] not in ("n", "\\"):
            after = text[at + 1 : at + 2]
            because = f"a backslash before `{after}`" if after else "a backslash at the end of the line"
            raise Refused("bad escape", start + at, 2, because, r"\n is a newline and \\ a backslash; there are no others")
        at = text.find("\\", at + 2)
    meant = re.sub(r"\\(.)", lambda pair: "\n" if pair[1] == "n" else pair[1], text)
    if len(meant) > TEXT_BYTES:
        because = f"a text of {len(meant)} bytes; {TEXT_BYTES} at most"
        raise Refused("script too large", start, len(text), because, "several writes of shorter texts, as a kernel wants too")
    return meant


def is_schemata(path):
    """Whether a path is that of a schemata file."""
    return re.fullmatch(GROUP + "/schemata", path) is not None


def is_mode(path):
    """Whether a path is that of a mode file."""
    return re.fullmatch(GROUP + "/mode", path) is not None


def is_occupancy(path, domains):
    """Whether a path is that of the occupancy in a cache that the machine has."""
    found = re.fullmatch(GROUP + r"(/mon_groups/[^/]+)?/mon_data/mon_L3_([0-9]{2})/llc_occupancy", path)
    return found is not None and int(found.groups()[-1]) < domains
