"""Whether the entries of the slices are true to their ops: accesses to the tree of their epoch, and the others to their command."""
from .taken import paid


def against_access(case, history, entry, op):
    """Why the entry of an access is not true to it, or None."""
    group, rmid, mask, line = entry.rest[:4]
    if entry.epoch > len(case.journals.tree):
        return f"its epoch is {entry.epoch}, and the tree has taken {len(case.journals.tree)} commands in all"
    if line != op.cache_line(entry.op):
        address = op.address + (entry.op - op.first) * op.stride
        return f"its address {address:#x} is of line {op.cache_line(entry.op)}"
    wanted = history.owned[entry.epoch, op.task, op.cpu]
    names = zip(("group", "RMID", "mask"), wanted, (group, rmid, mask))
    wrong = [(name, right, said) for name, right, said in names if right != said]
    if not wrong:
        return None
    shown = [f"{name} {right:x}, and not {said:x}" if name == "mask" else f"{name} {right}, and not {said}" for name, right, said in wrong]
    return f"at epoch {entry.epoch} task {op.task} on CPU {op.cpu} has {'; '.join(shown)}"


def accesses(case, history):
    """The first entry of an access that is not true to the tree, or None."""
    for number, entries in case.slices():
        for at, entry in enumerate(entries):
            if entry.kind == "access":
                op = case.ops.at(entry.thread, entry.op)
                if op and op.is_access and (because := against_access(case, history, entry, op)):
                    return case.at_entry(number, at, because)
    return None


def shown(owed):
    """An entry that is owed, in words."""
    epoch, kind, numbers = owed
    names = {"look": ("RMID",), "lock": ("mask", "first line"), "drop": ("line",), "access": ("group", "RMID", "mask", "line")}
    words = [f"{name} {number:x}" if name == "mask" else f"{name} {number}" for name, number in zip(names.get(kind, ()), numbers)]
    return " ".join([kind, *words, f"of epoch {epoch}"])


def listed(owed):
    """Entries that are owed, in words."""
    texts = [shown(one) for one in owed]
    return ", ".join(texts[:3]) + (f" and {len(texts) - 3} more" if len(texts) > 3 else "") if texts else "nothing"


def against_other(case, history, number, entry, op):
    """Why an entry that is no access's is not one that its command owes, or None."""
    if op.is_access:
        return f"{entry.thread}.{entry.op} is an access, which makes no `{entry.kind}`"
    position = history.positions[entry.thread, entry.op]
    owed = list(history.owed(position, number))
    if paid(entry) in owed:
        return None
    return f"`{op.words}` owes {case.name(number)} {listed(owed)}, and not {shown(paid(entry))}"


def others(case, history):
    """The first other entry that no command owes, or None."""
    for number, entries in case.slices():
        for at, entry in enumerate(entries):
            op = case.ops.at(entry.thread, entry.op)
            if op and not (op.is_access and entry.kind == "access"):
                if because := against_other(case, history, number, entry, op):
                    return case.at_entry(number, at, because)
    return None
