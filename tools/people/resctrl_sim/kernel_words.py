"""What a kernel writes to `last_cmd_status` where the simulator has a reason of its own.

A word in braces stands for what differs from case to case. Where the simulator's reason has it too, it is the same.
"""
import re

# The simulator's reasons, each with a kernel's words; a kernel leaves the status alone where there are none.
WORDS = (
    ("no such file or directory", ""),
    ("not a place for groups", ""),
    ("file exists", ""),
    ("file is read-only", ""),
    ("out of CLOSIDs", "Out of CLOSIDs"),
    ("no space on L3:{domain}", "No space on L3:{domain}"),
    ("out of RMIDs", "Out of RMIDs"),
    ("RMIDs are in limbo", "Out of RMIDs"),
    ("missing ':'", "Missing ':'"),
    ("unknown resource name", "Unknown or unsupported resource name '{name}'"),
    ("missing 'L3' value", "Missing 'L3' value"),
    ("missing '='", "Missing '=' or non-numeric domain"),
    ("unknown domain", ""),
    ("duplicate domain {domain}", "Duplicate domain {domain}"),
    ("mask is not a hexadecimal number", "Non-hex character in the mask {text}"),
    ("mask {mask} out of range", "Mask out of range"),
    ("mask {mask} has non-consecutive 1-bits", "The mask {mask} has non-consecutive 1-bits"),
    ("mask {mask} has fewer bits than min_cbm_bits", "Need at least {bits} bits in the mask"),
    ("overlaps with exclusive group", "Overlaps with exclusive group"),
    ("overlaps with pseudo-locked region", "CBM overlaps with pseudo-locked region"),
    ("overlaps with other group", "Overlaps with other group"),
    ("overlaps with shareable bits", "Overlaps with other group"),
    ("domain {domain} has a region already", "Pseudo-locked region in hierarchy"),
    ("schemata overlaps", "Schemata overlaps"),
    ("unknown or unsupported mode", "Unknown or unsupported mode"),
    ("default group cannot be pseudo-locked", "Cannot pseudo-lock default group"),
    ("monitor groups present", "Monitoring in progress"),
    ("tasks assigned to group", "Tasks assigned to resource group"),
    ("CPUs assigned to group", "CPUs assigned to resource group"),
    ("pseudo-locking in progress", "Pseudo-locking in progress"),
    ("task list is not numbers", "Task list parsing error pid {text}"),
    ("no task {task}", "No task {task}\nError while processing task {task}"),
    (
        "task {task} belongs to another control group",
        "Can't move task to different control group\nError while processing task {task}",
    ),
    ("CPU text has no reading", "Bad CPU list/mask"),
    ("no CPU {cpu}", "Bad CPU list/mask"),
    ("cannot drop CPUs from default group", "Can't drop CPUs from default group"),
    ("CPUs not in the parent group", "Can only add CPUs to mongroup that belong to parent"),
    ("threshold out of range", ""),
)
# A locked group refuses a write of `schemata` and of `mode` with words of their own.
LOCKED = "group is pseudo-locked"
LOCKED_WORDS = {"schemata": "Resource group is pseudo-locked", "mode": "Cannot change pseudo-locked group"}

FIELD = re.compile(r"\\{(\w+)\\}")
# How the lines begin that a kernel formats.
FORMATTED = ("Invalid pid ", *(line.partition("{")[0] for _, words in WORDS for line in words.split("\n") if "{" in line))


def pattern(template, field):
    """A pattern of a template, with this in place of each field."""
    return FIELD.sub(field, re.escape(template))


def kernel_words(reason, file=""):
    """A kernel's words for a reason, as far as they are known, or None where no kernel has it. `file` is that of the command."""
    if reason == LOCKED:
        return LOCKED_WORDS.get(file)
    for ours, kernels in WORDS:
        if found := re.fullmatch(pattern(ours, r"(?P<\1>\\S+)"), reason):
            return re.sub(r"\{(\w+)\}", lambda field: found.groupdict().get(field[1], field[0]), kernels)
    return None


def are_words_of(reason, told, file=""):
    """Whether a kernel that told this means the reason."""
    words = kernel_words(reason, file)
    return words is not None and re.fullmatch(pattern(words, ".*"), told, re.DOTALL) is not None
