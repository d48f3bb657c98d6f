"""The machine line of a script of `resctrl_cdp` or `resctrl_l2`."""
from .kinds import CDP, LEVELS
from .lines import refuse
from .machine import DEFAULTS, Ranges, WHAT, read_key

SHARED = ("domains", "sets", "ways", "classes", "cpus", "min", "shareable", "sparse")
L2 = {"l2_domains": None, "l2_sets": 16, "l2_ways": 4}
KEYS = {CDP: {key: DEFAULTS[key] for key in SHARED}, LEVELS: {key: DEFAULTS[key] for key in SHARED} | L2}
NOT_KEYS = {"slices": "each cache is one slice", "rmids": "nothing is counted by RMIDs", "threshold": "nothing is counted by RMIDs"}


def read_l2(given, line, machine):
    """Tests the numbers of the L2 caches."""
    numbers = {key: given[key][0] if key in given else default for key, default in L2.items()}
    domains = machine.domains if numbers["l2_domains"] is None else numbers["l2_domains"]
    named = {key.removeprefix("l2_"): given[key] for key in given if key.startswith("l2_")}
    ranges = Ranges(named, line, prefix="l2_")
    ranges.numbers.update(domains=domains, sets=numbers["l2_sets"], ways=numbers["l2_ways"], min=machine.min, sparse=machine.sparse, cpus=machine.cpus)
    if domains % machine.domains:
        ranges.fail("domains", f"l2_domains {domains} is not a multiple of the {machine.domains} domains", "each L3 has as many L2s")
    if machine.cpus < domains <= 8:
        refuse(WHAT, given["cpus"][1] if "cpus" in given else line, f"cpus {machine.cpus} is not from {domains} to 64", "each L2 has a CPU at least")
    ranges.check()


def read_machine(words, kind):
    """The machine of the L3 caches, with CPUs for each cache of both levels."""
    given = {}
    for word in words[1:]:
        key = word.text.partition("=")[0]
        if key in NOT_KEYS or key.startswith("l2_") and kind == CDP:
            refuse(WHAT, word, f"a script of resctrl_{kind} has no key `{key}`", NOT_KEYS.get(key, "L2s are those of resctrl_l2"))
        read_key(word, given, KEYS[kind])
    own = {key: value for key, value in given.items() if not key.startswith("l2_")}
    ranges = Ranges(own, words[0])
    if ranges.numbers["cpus"] is None and "l2_domains" in given:
        ranges.numbers["cpus"] = min(given["l2_domains"][0], 64)
    machine = ranges.check()
    if kind == CDP and machine.classes < 2:
        ranges.fail("classes", f"classes {machine.classes} is not from 2 to 64", "each group takes two: one for data, one for code")
    if kind == LEVELS:
        read_l2(given, words[0], machine)
    return machine
