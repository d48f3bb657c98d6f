"""Which examples are tried."""
from pathlib import Path

from paging.examples import example, examples

# Those of real machines have hundreds of thousands of accesses each; one of them is enough.
MACHINES = ("machines/skylake_sp",)
# Scripts of what no example has: slices and threads that race for them.
SCRIPTS = Path(__file__).resolve().parent / "scripts"


def chosen():
    """All examples, one of a real machine, and scripts of the tests."""
    own = [example(path, SCRIPTS) for path in sorted(SCRIPTS.glob("*.script"))]
    return own + [one for one in examples() if not one["name"].startswith("machines/") or one["name"] in MACHINES]


def offered():
    """Those of the chosen ones that the page offers."""
    names = {one["name"] for one in examples()}
    return [one for one in chosen() if one["name"] in names]
