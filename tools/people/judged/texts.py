"""What the texts say that are written to files (docs/FILE_TEXTS.md)."""
import re

from explained.numbers import value_of

from . import reasons
from .reasons import refused

BLANKS = " \t"
NUMBERS = 2**64


class Refusal(Exception):
    """Why a text is refused."""

    def __init__(self, reason, argument=0):
        super().__init__(reason)
        self.answer = refused(reason, argument)


def decimal(text, limit=NUMBERS):
    """The decimal number below this limit that a text spells, or None."""
    value = value_of(text) if re.fullmatch("[0-9]+", text) else limit
    return value if value < limit else None


def hexadecimal(text):
    """The hexadecimal number below 2^64 that a text spells, after an optional 0x, or None."""
    found = re.fullmatch("(?:0[xX])?([0-9a-fA-F]+)", text)
    return int(found[1], 16) if found and int(found[1], 16) < NUMBERS else None


def runs_of(mask):
    """How long the lowest run of 1-bits of a mask is, and how many 1-bits it has."""
    low = mask & -mask
    run = (mask // low) ^ (mask // low + 1) if mask else 0
    return run.bit_length() - 1 if mask else 0, mask.bit_count()


def mask_fault(machine, mask):
    """The reason against a mask, or None."""
    run, bits = runs_of(mask)
    if not mask or mask >> machine.ways:
        return reasons.OUT_OF_RANGE
    if not machine.sparse and run < bits:
        return reasons.GAPS
    return reasons.TOO_FEW if run < machine.min else None


def assignment(machine, entry, named):
    """The domain and the mask of an entry of a schemata text."""
    if "=" not in entry:
        raise Refusal(reasons.NO_EQUALS)
    before, _, after = entry.partition("=")
    domain = decimal(before.strip(BLANKS), machine.domains)
    if domain is None:
        raise Refusal(reasons.BAD_DOMAIN)
    if domain in named:
        raise Refusal(reasons.DOMAIN_TWICE, domain)
    mask = hexadecimal(after.strip(BLANKS))
    if mask is None:
        raise Refusal(reasons.NOT_HEX)
    if fault := mask_fault(machine, mask):
        raise Refusal(fault, mask)
    return domain, mask


def schemata(machine, text):
    """The masks of a schemata text by their domains, in its order."""
    masks = {}
    for line in text.strip(BLANKS).split("\n"):
        name, colon, rest = line.partition(":")
        if not colon:
            raise Refusal(reasons.NO_COLON)
        if name.strip(BLANKS) != "L3":
            raise Refusal(reasons.BAD_RESOURCE)
        if not rest.strip(BLANKS):
            raise Refusal(reasons.NO_VALUE)
        entries = rest.split(";")
        for entry in entries[:-1] if len(entries) > 1 and not entries[-1] else entries:
            domain, mask = assignment(machine, entry, masks)
            masks[domain] = mask
    return masks


def elements(text):
    """The elements of a text of tasks."""
    parts = text.strip(BLANKS).split(",")
    return parts if parts[-1] else parts[:-1]


def task_in(element):
    """The task that an element names, or None."""
    return decimal(element.strip(BLANKS))


def mask_cpus(text):
    """The CPUs of a mask text, as ranges, or None."""
    text = text.strip(BLANKS)
    if not text:
        return []
    groups = re.sub("^0[xX]", "", text).split(",")
    if not all(re.fullmatch("[0-9a-fA-F]{1,8}", group) for group in groups):
        return None
    value = int("".join(group.zfill(8) for group in groups), 16)
    return [(cpu, cpu) for cpu in range(value.bit_length()) if value >> cpu & 1]


def list_cpus(text):
    """The CPUs of a list text, as ranges, or None."""
    text, ranges = text.strip(BLANKS), []
    for piece in text.split(",") if text else ():
        first, dash, last = piece.partition("-")
        low = decimal(first)
        high = decimal(last) if dash else low
        if low is None or high is None or high < low:
            return None
        ranges.append((low, high))
    return ranges


def cpus(machine, ranges):
    """The set of the CPUs in these ranges."""
    if ranges is None:
        raise Refusal(reasons.BAD_CPUS)
    strange = [max(first, machine.cpus) for first, last in ranges if last >= machine.cpus]
    if strange:
        raise Refusal(reasons.NOT_A_CPU, min(strange))
    return {cpu for first, last in ranges for cpu in range(first, last + 1)}
