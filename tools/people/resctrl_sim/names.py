"""How a tool is called, as its messages and its usage name it."""
import os
import sys

# The names of an earlier version, which are links to `bikhnoun`: each is its word after this.
OLD = "resctrl_sim-"


def old_word(called):
    """The word of `bikhnoun` that a name of an earlier version means, or None."""
    name = os.path.basename(called)
    return name.removeprefix(OLD) if name.startswith(OLD) else None


def tool_name(word):
    """`bikhnoun mount`, or `resctrl_sim-mount` where it was called so."""
    return OLD + word if old_word(sys.argv[0]) == word else f"bikhnoun {word}"
