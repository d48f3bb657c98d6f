"""The reasons of refusals, by the numbers that journals have for them, and their texts in reports."""

# Each reason in the order of its number, from 1; A is its argument, decimal or, for a mask, hexadecimal (docs/JOURNALS.md).
TEXTS = (
    "ENOENT no such file or directory", "EPERM not a place for groups", "EEXIST file exists", "EACCES file is read-only",
    "ENOSPC out of CLOSIDs", "ENOSPC no space on L3:A", "ENOSPC out of RMIDs", "EBUSY RMIDs are in limbo", "ESRCH no task A",
    "EINVAL missing ':'", "EINVAL unknown resource name", "EINVAL missing 'L3' value", "EINVAL missing '='", "EINVAL unknown domain",
    "EINVAL duplicate domain A", "EINVAL mask is not a hexadecimal number", "EINVAL mask A out of range",
    "EINVAL mask A has non-consecutive 1-bits", "EINVAL mask A has fewer bits than min_cbm_bits", "EINVAL overlaps with exclusive group",
    "EINVAL overlaps with pseudo-locked region", "EINVAL overlaps with other group", "EINVAL overlaps with shareable bits",
    "EINVAL schemata overlaps", "EINVAL unknown or unsupported mode", "EINVAL group is pseudo-locked",
    "EINVAL pseudo-locking in progress", "EINVAL default group cannot be pseudo-locked", "EINVAL tasks assigned to group",
    "EINVAL CPUs assigned to group", "EINVAL monitor groups present", "EINVAL task A belongs to another control group",
    "EINVAL task list is not numbers", "EINVAL CPU text has no reading", "EINVAL no CPU A",
    "EINVAL cannot drop CPUs from default group", "EINVAL CPUs not in the parent group", "EINVAL threshold out of range",
    "EINVAL a region has one domain", "EINVAL domain A has a region already", "EINVAL offset past the region",
    "EINVAL CPU not in the domain of the region",
)
(
    NO_SUCH_PATH, NOT_A_PLACE, EXISTS, ONLY_READ, OUT_OF_CLOSIDS, NO_SPACE, OUT_OF_RMIDS, RMIDS_BUSY, NO_TASK, NO_COLON, BAD_RESOURCE,
    NO_VALUE, NO_EQUALS, BAD_DOMAIN, DOMAIN_TWICE, NOT_HEX, OUT_OF_RANGE, GAPS, TOO_FEW, OVERLAP_EXCLUSIVE, OVERLAP_REGION,
    OVERLAP_OTHER, OVERLAP_SHAREABLE, SCHEMATA_OVERLAP, UNKNOWN_MODE, GROUP_LOCKED, LOCKING, DEFAULT_GROUP, HAS_TASKS, HAS_CPUS,
    HAS_MON_GROUPS, OTHER_CONTROL, BAD_TASK_LIST, BAD_CPUS, NOT_A_CPU, DROPS_DEFAULT, NOT_PARENTS, BAD_THRESHOLD, ONE_DOMAIN,
    HAS_REGION, PAST_REGION, WRONG_CPU,
) = range(1, len(TEXTS) + 1)
MASKS = (OUT_OF_RANGE, GAPS, TOO_FEW)

# The answer of a command that is accepted: no reason, and no argument.
ACCEPTED = (0, 0)


def refused(reason, argument=0):
    """An answer: the number of a reason, and its argument."""
    return (reason, argument)


def text_of(answer):
    """An answer as a report has it."""
    reason, argument = answer
    if not reason:
        return "ok"
    text = TEXTS[reason - 1]
    shown = f"{argument:x}" if reason in MASKS else str(argument)
    return " ".join(shown if word == "A" else word.replace(":A", ":" + shown) for word in text.split(" "))
