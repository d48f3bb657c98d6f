"""The examples that the page offers."""
from pathlib import Path

HERE = Path(__file__).resolve().parent
# In the repository, and below the folder of an installation.
FOLDERS = (HERE.parents[2] / "examples", HERE.parents[3] / "doc" / "resctrl-sim" / "examples")


def folder():
    """Where the examples are, or None."""
    return next((folder for folder in FOLDERS if folder.is_dir()), None)


def about(text):
    """What an example says of itself: the comment at its beginning, in one line."""
    lines = []
    for line in text.splitlines():
        if not line.startswith("#"):
            break
        lines.append(line.lstrip("#").strip())
    return " ".join(" ".join(lines).split(" The steps of ")[0].split())


def example(path, top):
    """An example. One whose threads race has lines that each report of it has, and no one report."""
    text = path.read_text(encoding="ascii")
    how = "run" if path.with_suffix(".lines").exists() else "step"
    return {"name": str(path.relative_to(top).with_suffix("")), "about": about(text), "text": text, "how": how}


def examples():
    """All examples, and then those of real machines, by their names."""
    top = folder()
    if top is None:
        return []
    return [example(path, top) for path in [*sorted(top.glob("*.script")), *sorted(top.glob("machines/*.script"))]]
