"""What `tools/gate/compare_pages` is made of: the blocks of code of a page, a shell that runs their commands, and links."""
from pathlib import Path

TOP = Path(__file__).resolve().parents[3]


def pages():
    """The pages, by their paths in the repository."""
    docs = sorted(str(path.relative_to(TOP)) for path in TOP.glob("docs/*.md"))
    return ["README.md", "CONTRIBUTING.md", *docs, "tools/README.md", "bench/README.md"]


def text_of(page):
    return (TOP / page).read_text(encoding="utf-8")
