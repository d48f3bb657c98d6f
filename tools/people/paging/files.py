"""The files of the page."""
from pathlib import Path

PAGE = Path(__file__).resolve().parent / "page"
INDEX = "index.html"
TYPES = {".html": "text/html; charset=utf-8", ".css": "text/css; charset=utf-8", ".js": "text/javascript; charset=utf-8"}


def names():
    """The names of all files of the page."""
    return sorted(path.name for path in PAGE.iterdir() if path.suffix in TYPES)


def file_of(name):
    """The type and the bytes of a file of the page, or None if there is no such file."""
    if name not in names():
        return None
    path = PAGE / name
    return TYPES[path.suffix], path.read_bytes()
