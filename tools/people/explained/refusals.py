"""What to do about a command that a valid script has, and the tree refuses."""
from difflib import get_close_matches
import re

HINTS = {
    "EINVAL missing ':'": "each line of the text begins with L3: ; a \\n at its end opens an empty one",
    "EINVAL missing '='": "an entry is DOMAIN=MASK, as in L3:0=f",
    "EINVAL overlaps with exclusive group": "the exclusive group has to give the ways back first",
    "EINVAL schemata overlaps": "take the group's ways out of the masks of all other groups first, the default group's too",
    "EINVAL task list is not numbers": "numbers are separated by commas: 1,2",
    "EBUSY RMIDs are in limbo": "a tick frees those whose lines are gone",
    "ENOSPC out of CLOSIDs": "`classes` of the machine line says how many groups there can be, the default group with them",
    "ENOSPC out of RMIDs": "`rmids` of the machine line says how many groups can be counted, the default group with them",
}
# The names of files and fixed directories.
NAMES = (
    "schemata", "size", "mode", "tasks", "cpus", "cpus_list", "mon_data", "mon_groups", "info", "llc_occupancy", "last_cmd_status",
    "num_closids", "cbm_mask", "min_cbm_bits", "shareable_bits", "bit_usage", "sparse_masks", "num_rmids", "mon_features",
    "max_threshold_occupancy", "L3", "L3_MON",
)
MODES = ("shareable", "exclusive", "pseudo-locksetup")


def of_path(path, made):
    """Of a path that is not there: a file's name or a group's that is nearly the same."""
    parts = path.split("/")[1:]
    for at, part in enumerate(parts):
        above = "/".join(parts[:at])
        if part in NAMES or re.fullmatch(r"mon_L3_[0-9]{2}", part) or at == 0 and f"/{part}" in made:
            continue
        groups = [group[1:] for group in made] if at == 0 else []
        near = get_close_matches(part, [*NAMES, *groups], 1, 0.7)
        if near:
            right = "/".join([above, near[0], *parts[at + 1 :]]).strip("/")
            return f"the name is `{near[0]}`: /{right}"
        break
    return "a group is made by mkdir before its files are there"


def without_repeats(text):
    """A schemata text with its resource named once."""
    entries = re.split("[;, \t]+", text.replace("\n", ";"))
    return "L3:" + ";".join(entry.removeprefix("L3:") for entry in entries if entry.removeprefix("L3:"))


def of_domain(machine, text):
    """Of an entry that names no domain."""
    if text.count("L3:") > 1:
        return f"the resource is named once in a line: {without_repeats(text)}"
    return f"domains are numbered from 0 to {machine.domains - 1}, as `domains` of the machine line says"


def of_digits(text):
    """Of a mask that is no hexadecimal number."""
    if re.search(r"=[^;]*[ ,]+(L3:)?[0-9]+=", text):
        return f"entries are separated by a semicolon: {without_repeats(text)}"
    return "a mask has the digits 0 to 9 and a to f"


def of_mask(machine, result):
    """Of a mask that this machine has not."""
    mask = result.split(" ")[2]
    if "out of range" in result:
        return "a mask has one way at least" if mask == "0" else f"all {machine.ways} ways are {2**machine.ways - 1:x}"
    if "non-consecutive" in result:
        return "the ways of a mask are adjacent, unless the machine line has sparse=1"
    return f"`min` of the machine line asks for {machine.min} adjacent ways"


def of_mode(text):
    """Of a text that is no mode."""
    word = text.strip().strip("\"'")
    if word.lower() == "pseudo-locked":
        return "write pseudo-locksetup, and then the schemata: that locks the region"
    near = get_close_matches(word.lower(), MODES, 1)
    why = "in small letters" if word.lower() in MODES else "a mode is one of " + ", ".join(MODES)
    return f"the mode is `{near[0]}`, {why}" if near else why


def mask_of_list(text):
    """The mask of a list of CPUs, or None."""
    found = [re.fullmatch(r"([0-9]{1,2})(?:-([0-9]{1,2}))?", part) for part in text.strip().split(",")]
    if not all(found):
        return None
    mask = 0
    for part in found:
        for cpu in range(int(part[1]), int(part[2] or part[1]) + 1):
            mask |= 1 << cpu
    return mask


def of_cpus(path, text):
    """Of a text that names no CPUs."""
    if path.endswith("/cpus"):
        mask = mask_of_list(text)
        return f"a list belongs in cpus_list; as a mask it is {mask:x}" if mask else "a mask is hexadecimal: c is CPUs 2 and 3"
    return "a list is numbers and ranges, as 0-1,3; a mask belongs in cpus"


def hint_of(machine, words, result, made):
    """What to do about a command that was refused, or nothing. The groups that were made are known by their paths."""
    parts = words.split(" ", 2)
    path, text = (parts[1] if len(parts) > 1 else ""), (parts[2] if len(parts) > 2 else "").replace("\\n", "\n")
    if result == "ENOENT no such file or directory":
        return of_path(path, made)
    if result == "EINVAL unknown domain":
        return of_domain(machine, text)
    if result == "EINVAL unknown resource name":
        return "the resource is L3, as in L3:0=f"
    if result == "EINVAL mask is not a hexadecimal number":
        return of_digits(text)
    if result.startswith("EINVAL mask "):
        return of_mask(machine, result)
    if result == "EINVAL unknown or unsupported mode":
        return of_mode(text)
    if result == "EINVAL CPU text has no reading":
        return of_cpus(path, text)
    return HINTS.get(result, "")
