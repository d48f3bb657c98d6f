"""The lines that stand in a thread: how many words each has, and what each word may be."""
import re

from .limits import ADDRESSES
from .lines import Refused, refuse
from .numbers import decimal, number
from .paths import check_length, check_path, is_mode, is_occupancy, is_schemata, read_text

WHAT = "bad argument"
# What is written for all caches, and is no domain.
EVERY = ("all", "*", "/", "any", "each", "every")

USAGES = {
    "mkdir": "mkdir PATH", "rmdir": "rmdir PATH", "read": "read PATH", "list": "list PATH", "write": "write PATH TEXT",
    "flush": "flush [DOMAIN]", "clflush": "clflush ADDR", "tick": "tick", "access": "access TASK CPU ADDR",
    "sweep": "sweep TASK CPU ADDR COUNT STRIDE", "touch": "touch PATH OFFSET TASK CPU", "phase": "phase", "thread": "thread",
    "order": "order NUMBER ...",
}


def check_count(line, words, usage, least, most):
    """Refuses a line with too few words or too many; what may be missing is in the usage."""
    if len(words) < least:
        missing = usage.split(" ")[len(words)]
        raise Refused(WHAT, len(line.rstrip(" \t")), 1, f"{missing} is missing", usage)
    if len(words) > most:
        refuse(WHAT, words[most], f"`{words[most].text}` is a word too many", words_hint(words, usage))


def words_hint(words, usage):
    """What was probably meant by a line with too many words."""
    if words[1].text.startswith("-") and usage.endswith("PATH"):
        return f"there are no options: {usage}"
    if usage in ("phase", "thread"):
        return "phases and threads have no names: they are numbered from 0, in the order of the lines"
    if usage.endswith(" PATH"):
        return "one path for each line, and no blank in a name"
    return usage


def read_address(word):
    """An address of memory."""
    value = number(WHAT, word, "ADDR")
    check_address(word, value, value)
    return value


def check_address(word, first, last):
    """Refuses an access whose last address is too great."""
    if last >= ADDRESSES:
        hint = f"its lower 48 bits are {first % ADDRESSES:#x}" if first >= ADDRESSES else "COUNT - 1 times STRIDE is added to ADDR"
        refuse(WHAT, word, f"address {last:#x} is not below 2^48", hint)


def read_cpu(word, machine):
    """A CPU of the machine."""
    value = decimal(WHAT, word, "CPU")
    if value >= machine.cpus:
        hint = f"CPUs are numbered from 0 to {machine.cpus - 1}, as `cpus` of the machine says; where it is not given, one for each domain"
        refuse(WHAT, word, f"there is no CPU {word.text}", hint)
    return value


def check_task(word, task, tasks):
    """Refuses a task that is not declared."""
    if not tasks.has(task):
        hint = f"declared are: {tasks.text()}" if tasks.ranges else "a line `tasks ..` before the first phase declares them"
        refuse("unknown task", word, f"task {word.text} is not declared", hint)


def read_access(line, words, machine, tasks):
    """The weight of an access or a sweep."""
    is_sweep = words[0].text == "sweep"
    wanted = 6 if is_sweep else 4
    check_count(line, words, USAGES[words[0].text], wanted, wanted)
    task = decimal(WHAT, words[1], "TASK")
    read_cpu(words[2], machine)
    first = number(WHAT, words[3], "ADDR")
    count, stride = (decimal(WHAT, words[4], "COUNT"), number(WHAT, words[5], "STRIDE")) if is_sweep else (1, 0)
    if count < 1:
        refuse(WHAT, words[4], "a sweep of no access", "COUNT is one or more")
    check_address(words[3], first, first + (count - 1) * stride)
    check_task(words[1], task, tasks)
    return count


def read_touch(line, words, machine, tasks):
    """The weight of a touch."""
    check_count(line, words, USAGES["touch"], 5, 5)
    number(WHAT, words[2], "OFFSET")
    task = decimal(WHAT, words[3], "TASK")
    read_cpu(words[4], machine)
    check_path(words[1])
    check_task(words[3], task, tasks)
    check_length(words[1])
    return 2


def read_flush(line, words, machine, tasks):
    """The weight of a flush of all caches, or of one."""
    check_count(line, words, USAGES["flush"], 1, 2)
    if len(words) == 2:
        if re.fullmatch("0[xX].+", words[1].text):
            refuse(WHAT, words[1], f"DOMAIN `{words[1].text}` is not a decimal number", f"of one line: clflush {words[1].text}")
        if words[1].text.lower() in EVERY:
            refuse(WHAT, words[1], f"DOMAIN `{words[1].text}` is not a decimal number", "`flush` alone empties all caches")
        if decimal(WHAT, words[1], "DOMAIN") >= machine.domains:
            hint = f"domains are numbered from 0 to {machine.domains - 1}; the line of an address is flushed by clflush"
            refuse(WHAT, words[1], f"there is no domain {words[1].text}", hint)
    return machine.parts + 1


def read_clflush(line, words, machine, tasks):
    """The weight of the flush of one line, by its address or in a region."""
    if len(words) > 1 and words[1].text.startswith("/"):
        check_count(line, words, "clflush PATH OFFSET", 3, 3)
        number(WHAT, words[2], "OFFSET")
        check_path(words[1])
        check_length(words[1])
    else:
        check_count(line, words, "clflush ADDR", 2, 2)
        read_address(words[1])
    return machine.parts + 1


def read_write(line, words, machine, tasks):
    """The weight of a write."""
    if len(words) < 2:
        check_count(line, words, USAGES["write"], 2, 2)
    check_path(words[1])
    start = words[1].start + len(words[1].text) + 1
    read_text(line[start:], start)
    check_length(words[1])
    if is_schemata(words[1].text):
        return machine.parts + 1
    return 2 * machine.parts + 1 if is_mode(words[1].text) else 1


def read_path_line(line, words, machine, tasks):
    """The weight of a line of one path."""
    kind = words[0].text
    check_count(line, words, USAGES[kind], 2, 2)
    check_path(words[1])
    check_length(words[1])
    counts = kind == "rmdir" or kind == "read" and is_occupancy(words[1].text, machine.domains)
    return counting_weight(machine) if counts else 1


def read_tick(line, words, machine, tasks):
    """The weight of a tick."""
    check_count(line, words, USAGES["tick"], 1, 1)
    return counting_weight(machine)


def counting_weight(machine):
    """The weight of a command that may count the lines of each RMID in each slice."""
    return (machine.rmids + 1) * machine.parts + 1


READERS = {
    "access": read_access, "sweep": read_access, "touch": read_touch, "flush": read_flush, "clflush": read_clflush,
    "write": read_write, "mkdir": read_path_line, "rmdir": read_path_line, "read": read_path_line, "list": read_path_line,
    "tick": read_tick,
}
