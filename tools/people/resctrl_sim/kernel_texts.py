"""How a kernel reads the texts of its files. A reader gives the text that the simulator takes for the same, or tells why there is none.

A text is what one call wrote, with its newlines. The rules are those of Linux 6.12.
"""
from dataclasses import dataclass
import errno
import re

BAD_CPUS = "Bad CPU list/mask\n"
BAD_DOMAIN = "Missing '=' or non-numeric domain\n"
BAD_MODE = "Unknown or unsupported mode\n"
BLANKS = " \t\n\v\f\r"
GROUP_BITS = 32
GROUP_DIGITS = 8
COUNTED_BYTES = 64
MOST_INT = 2**31 - 1
MOST_UNSIGNED = 2**32 - 1


class Unread(ValueError):
    """A kernel refuses a text: with an error's number, and what it adds to `last_cmd_status`."""

    def __init__(self, number, words=""):
        super().__init__(words)
        self.number = number
        self.words = words


def number_of(text, base):
    """The number of a text, with a sign or without, or None. One newline may end it; at base 0 the prefix tells the base."""
    found = re.fullmatch(r"([+-]?)(.*?)\n?", text, re.DOTALL)
    sign, digits = found.groups()
    if base == 0:
        base = 16 if re.match("0[xX][0-9a-fA-F]", digits) else 8 if digits.startswith("0") else 10
    if base == 16:
        digits = re.sub("^0[xX]", "", digits)
    known = "0123456789abcdef"[:base]
    if not digits or any(digit not in known for digit in digits.lower()):
        return None
    return int(digits, base) * (-1 if sign == "-" else 1)


def mode_text(text):
    """Of a mode: blanks are no part of it."""
    name = text.removesuffix("\n")
    if name.strip(BLANKS) != name:
        raise Unread(errno.EINVAL, BAD_MODE)
    return name


def schemata_text(text):
    """Of masks: a sign is passed over; blanks are, round a name and a mask, but not before a domain or after it."""
    return "\n".join(map(line_text, text.removesuffix("\n").split("\n")))


def line_text(line):
    name, colon, entries = line.partition(":")
    if name.strip(BLANKS) != "L3" or not entries:
        return line
    parts = entries.split(";")
    # What stands after the last semicolon may be missing.
    last = parts.pop() if len(parts) > 1 and not parts[-1] else None
    return name + colon + ";".join([*map(entry_text, parts), *([] if last is None else [last])])


def entry_text(entry):
    domain, equals, mask = entry.partition("=")
    number = number_of(domain, 10)
    if not equals or number is None or domain.startswith("-") or domain.endswith("\n"):
        raise Unread(errno.EINVAL, BAD_DOMAIN)
    return f"{number}={mask.strip(BLANKS).removeprefix('+')}"


@dataclass(frozen=True)
class Tasks:
    """The ids that are moved, of which 0 is whoever writes, and what ends the write after them, or None."""

    ids: tuple[int, ...]
    fault: Unread | None


def tasks_of(text):
    """Of tasks: numbers to base 0, up to the first that is none."""
    ids, rest = [], text
    while rest and not rest.startswith("\n"):
        element, _, rest = rest.partition(",")
        element = element.strip(BLANKS)
        number = number_of(element, 0)
        if number is None or not -MOST_INT - 1 <= number <= MOST_INT:
            return Tasks(tuple(ids), Unread(errno.EINVAL, f"Task list parsing error pid {element}\n"))
        if number < 0:
            return Tasks(tuple(ids), Unread(errno.EINVAL, f"Invalid pid {number}\n"))
        ids.append(number)
    return Tasks(tuple(ids), None)


def threshold_text(text):
    """Of a threshold: a number to base 0 without blanks, which is rounded down to what the hardware counts in."""
    number = number_of(text, 0)
    if number is None or text.startswith("-"):
        raise Unread(errno.EINVAL)
    if number > MOST_UNSIGNED:
        raise Unread(errno.ERANGE)
    return str(number // COUNTED_BYTES * COUNTED_BYTES)


def cpus_text(text, cpus):
    """Of a mask of CPUs: groups of up to eight digits, with blanks and commas between them, no more than the machine has."""
    groups = re.split(rf"[,{BLANKS}]+", text.partition("\n")[0].strip("," + BLANKS))
    mask, most = 0, -(-cpus // GROUP_BITS)
    for place, group in enumerate(reversed([group for group in groups if group])):
        if place == most:
            raise Unread(errno.EOVERFLOW, BAD_CPUS)
        mask |= group_of(group) << place * GROUP_BITS
    if mask >> cpus:
        raise Unread(errno.EOVERFLOW, BAD_CPUS)
    parts = [mask >> place * GROUP_BITS & MOST_UNSIGNED for place in reversed(range(most))]
    return ",".join([f"{parts[0]:x}", *(f"{part:08x}" for part in parts[1:])])


def group_of(digits):
    """A group, whose digits are read from the last one on."""
    kept = digits[-GROUP_DIGITS:]
    if not re.fullmatch("[0-9a-fA-F]+", kept):
        raise Unread(errno.EINVAL, BAD_CPUS)
    if len(digits) > GROUP_DIGITS:
        is_digit = re.fullmatch("[0-9a-fA-F]", digits[-GROUP_DIGITS - 1])
        raise Unread(errno.EOVERFLOW if is_digit else errno.EINVAL, BAD_CPUS)
    return int(kept, 16)


REGION = re.compile(r"(?:(?i:(all))|(N|\d+)(?:-(N|\d+))?)(?::(N|\d+)/(N|\d+))?")


def cpu_list_text(text, cpus):
    """Of a list of CPUs: numbers and ranges, of which `:USED/SIZE` takes a part, with blanks and commas between them."""
    found = set()
    for region in re.split(rf"[,{BLANKS}]+", text.partition("\n")[0].strip("," + BLANKS)):
        if region:
            found |= region_of(region, cpus)
    return ",".join(map(str, sorted(found)))


def region_of(region, cpus):
    """The CPUs of a range."""
    parts = REGION.fullmatch(region)
    if not parts:
        raise Unread(errno.EINVAL, BAD_CPUS)
    everything, *numbers = parts.groups()
    start, end, used, size = (cpus - 1 if number == "N" else number and int(number) for number in numbers)
    if everything:
        start, end = 0, cpus - 1
    if max(number or 0 for number in (start, end, used, size)) > MOST_UNSIGNED:
        raise Unread(errno.EOVERFLOW, BAD_CPUS)
    end = start if end is None else end
    used, size = (end + 1, end + 1) if used is None else (used, size)
    if start > end or size == 0 or used > size:
        raise Unread(errno.EINVAL, BAD_CPUS)
    if end >= cpus:
        raise Unread(errno.ERANGE, BAD_CPUS)
    return {cpu for cpu in range(start, end + 1) if (cpu - start) % size < used}
