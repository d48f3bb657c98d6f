"""The limits of a script, and how often a line fits into what they leave. docs/FORMAT.md has both tables."""
MOST_WEIGHT = 4_000_000
MOST_BYTES = 67_108_864
MOST_TEXT = 4_096
MOST_TASKS = 4_096
LONGEST_NAME = 255
SETS, WAYS, DOMAINS, SLICES, CLASSES, RMIDS, CPUS = 65_536, 32, 8, 32, 64, 256, 64
PLACES = 1_048_576

# The ids with the most digits, as many as a script may declare.
LAST_TASK = 2**32 - 1
FIRST_TASK = LAST_TASK - MOST_TASKS + 1
LONG_TASKS = f"{FIRST_TASK}-{LAST_TASK}"


def long_name(number):
    """A name of as many bytes as one may have."""
    return f"{number:n>{LONGEST_NAME}}"


def weight(line, slices, rmids):
    """The weight of a line of a thread, on a machine of so many slices in all and so many RMIDs."""
    command, *words = line.split()
    file = words[0].rsplit("/", 1)[-1] if words else ""
    if command == "sweep":
        return int(words[3])
    if command in ("flush", "clflush") or (command, file) == ("write", "schemata"):
        return slices + 1
    if (command, file) == ("write", "mode"):
        return 2 * slices + 1
    if command in ("rmdir", "tick") or (command, file) == ("read", "llc_occupancy"):
        return (rmids + 1) * slices + 1
    return 2 if command == "touch" else 1


def repeats(head, lines, slices, rmids):
    """How often these lines fit after such a head."""
    used = sum(weight(line, slices, rmids) for line in head)
    each = sum(weight(line, slices, rmids) for line in lines)
    bytes_used = sum(len(line) + 1 for line in head) + 1_000
    bytes_each = sum(len(line) + 1 for line in lines)
    return min((MOST_WEIGHT - used) // each, (MOST_BYTES - bytes_used) // bytes_each)
