"""The rules by which a kernel answers differently from the simulator. docs/RESCTRL.md shows them as tables.

Each was seen on a running kernel, unless its `source` says where else it is from.
"""
import re

from .accepted_here import ACCEPTED_HERE
from .accepted_there import ACCEPTED_THERE
from .both_accept import BOTH_ACCEPT
from .both_refuse import BOTH_REFUSE
from .patterns import PREFIXED, ZERO
from .rule import Outcome, Rule, Strict

__all__ = ["RULES", "Outcome", "Rule", "Strict", "means_otherwise", "rule_of"]

# The first that matches a difference names it.
RULES = (*ACCEPTED_HERE, *BOTH_ACCEPT, *ACCEPTED_THERE, *BOTH_REFUSE)
# The unit in which the simulated hardware counts.
COUNTED_BYTES = 64


def means_otherwise(command):
    """Whether a kernel may read a text that both accept as something else."""
    if command.target == "write tasks":
        return re.search(PREFIXED, command.written) or re.search(ZERO, command.written)
    if command.target == "write max_threshold_occupancy":
        text = command.written.strip()
        return re.search(PREFIXED, text) or int(text) % COUNTED_BYTES
    return False


def rule_of(difference, version):
    """The first rule that a difference is an instance of, or None."""
    rules = (rule for rule in RULES if version in rule.versions)
    return next((rule for rule in rules if any(case.matches(difference) for case in rule.cases)), None)
