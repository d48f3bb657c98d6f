"""What a rule is: a way in which a kernel answers differently from the simulator."""
from dataclasses import dataclass
from enum import Enum
import re

from ..differences import Kind


class Outcome(Enum):
    """Which of the two accepts. What misleads an author of tools most is first."""

    ACCEPTED_HERE = "The simulator accepts, and a kernel refuses"
    BOTH_ACCEPT = "Both accept, and do different things"
    ACCEPTED_THERE = "The simulator refuses, and a kernel accepts"
    BOTH_REFUSE = "Both refuse, with another error or other words"


class Strict(Enum):
    """Whether the mount's `--strict` answers as a kernel."""

    YES = "yes"
    IN_PART = "in part"
    NO = "no"


@dataclass(frozen=True)
class Case:
    """What a difference looks like: patterns that are searched for in its target, its state, its written text and both answers."""

    target: str
    kinds: tuple[Kind, ...]
    simulator: str = ""
    kernel: str = ""
    state: str = ""
    text: str = ""

    def matches(self, difference):
        """Whether a difference looks like this."""
        command = difference.command
        pairs = (
            (self.target, command.target), (self.simulator, difference.simulator), (self.kernel, difference.kernel),
            (self.state, difference.state), (self.text, command.written),
        )
        return difference.kind in self.kinds and all(re.search(pattern, text) for pattern, text in pairs)


@dataclass(frozen=True, kw_only=True)
class Rule:
    """A rule. `file`, `example`, `simulator` and `kernel` are the cells of its row in docs/RESCTRL.md; `cases` recognize it."""

    name: str
    outcome: Outcome
    file: str
    example: str
    simulator: str
    kernel: str
    strict: Strict
    cases: tuple[Case, ...] = ()
    versions: tuple[str, ...] = ("6.12", "6.1")
    # Where it is known from, if it was not seen on a running kernel.
    source: str = ""
    # Whether the trees may differ before it is seen, so that nothing after it can be compared.
    is_silent: bool = False
    # Whether the text or the path alone makes it, whatever the trees are.
    is_of_text: bool = False

    @property
    def anchor(self):
        """The name of its row in the page."""
        return re.sub(r"[^a-z0-9]+", "-", self.name.lower()).strip("-")

    @property
    def link(self):
        return f"docs/RESCTRL.md#{self.anchor}"
