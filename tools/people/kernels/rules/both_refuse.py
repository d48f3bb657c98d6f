"""Both refuse, with another error or other words."""
from functools import partial

from ..differences import Kind
from .patterns import FAULTY_MASK, NO_RMID
from .rule import Case, Outcome, Rule, Strict

*_, ERROR, WORDS, _ = Kind
rule = partial(Rule, outcome=Outcome.BOTH_REFUSE)

BOTH_REFUSE = (
    rule(
        name="paths of the wrong kind",
        file="any",
        example="a file as a directory, a directory as a file, `rmdir /`",
        simulator="`ENOENT` or `EPERM`",
        kernel="`ENOTDIR`, `EISDIR`, and `EBUSY` for the root",
        strict=Strict.YES,
        cases=(Case("", (ERROR,), simulator="^(ENOENT|EPERM) ", kernel="^(EISDIR|ENOTDIR|EBUSY)$"),),
    ),
    rule(
        name="writes in pseudo-locksetup",
        file="`tasks`, `cpus`, `cpus_list`",
        example="a write in a group in `pseudo-locksetup` or in a locked one",
        simulator="`EINVAL pseudo-locking in progress`",
        kernel="`EACCES`, and the status is unchanged",
        strict=Strict.YES,
        cases=(Case("write (tasks|cpus|cpus_list)$", (ERROR,), kernel="^EACCES$"),),
    ),
    rule(
        name="CPUs that are not there",
        file="`cpus`, `cpus_list`",
        example="a CPU past the machine's",
        simulator="`EINVAL no CPU 4`",
        kernel="`EOVERFLOW` of a mask and `ERANGE` of a list, `Bad CPU list/mask`; `EINVAL`, `Can only assign online CPUs` of one that is offline",
        strict=Strict.YES,
        source="CPUs that are offline: only from the kernel's source",
        cases=(Case("write cpus(_list)?$", (ERROR,), kernel="^(EOVERFLOW|ERANGE) "),),
    ),
    rule(
        name="ids that are no int",
        file="`tasks`",
        example="`2147483648`, `-1`",
        simulator="`ESRCH`; `EINVAL`",
        kernel="`EINVAL`, `Task list parsing error pid 2147483648`; `EINVAL`, `Invalid pid -1`",
        strict=Strict.YES,
        cases=(Case("write tasks", (ERROR, WORDS), kernel="^EINVAL (Task list parsing error|Invalid pid)"),),
    ),
    rule(
        name="thresholds past 32 bits",
        file="`max_threshold_occupancy`",
        example="`99999999999`",
        simulator="`EINVAL`",
        kernel="`ERANGE`, and the status is unchanged",
        strict=Strict.YES,
        cases=(Case("write max_threshold_occupancy", (ERROR,), kernel="^ERANGE$"),),
    ),
    rule(
        name="RMIDs before ways",
        file="`mkdir`",
        example="neither an RMID nor a way is free",
        simulator="`no space on L3:D`",
        kernel="`Out of RMIDs`; 6.1 tries RMIDs before classes too",
        strict=Strict.NO,
        cases=(
            Case("mkdir control", (WORDS, ERROR), simulator="^ENOSPC no space on", kernel=NO_RMID),
            Case("mkdir control", (WORDS, ERROR), simulator="^ENOSPC out of CLOSIDs", kernel=NO_RMID),
        ),
    ),
    rule(
        name="an unknown domain",
        file="`schemata`",
        example="`L3:9=1`, `L3:x=1`",
        simulator="`EINVAL unknown domain`",
        kernel="`EINVAL`, and `last_cmd_status` is `ok`; `Missing '=' or non-numeric domain`",
        strict=Strict.YES,
        cases=(
            Case("write schemata", (WORDS,), simulator="unknown domain", kernel="^EINVAL Missing '=' or non-numeric domain"),
            Case("write schemata", (WORDS,), kernel="^EINVAL$"),
        ),
    ),
    rule(
        name="order of faults",
        file="`schemata`",
        example="`L3:0=ff;1=5`, with an overlap in the first entry and a bad mask in the second",
        simulator="all faults of the text come before overlaps",
        kernel="entry by entry; a domain's region comes before its mask, and a region before an exclusive group",
        strict=Strict.NO,
        cases=(
            Case("write schemata", (WORDS,), kernel=FAULTY_MASK, text=r";|\n"),
            Case("write schemata", (WORDS,), kernel=FAULTY_MASK, state="^pseudo-locksetup,"),
            Case("write schemata", (WORDS,), simulator="overlaps with exclusive group", kernel="^EINVAL CBM overlaps"),
        ),
    ),
    rule(
        name="exclusive from pseudo-locksetup",
        file="`mode`",
        example="`exclusive` in a group in `pseudo-locksetup`",
        simulator="`overlaps with exclusive group` or `.. pseudo-locked region`",
        kernel="`Schemata overlaps`, which is tried first",
        strict=Strict.NO,
        cases=(Case("write mode", (WORDS,), kernel="^EINVAL Schemata overlaps"),),
    ),
)
