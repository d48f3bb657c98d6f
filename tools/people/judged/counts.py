"""Whether each command has the counts of its looks, and each op just the entries that it makes."""
from collections import defaultdict

from .groups import domain_of
from .taken import paid
from .truth import listed


def looks(case, history):
    """The first command whose counts are not those of its looks, or None."""
    first = {}
    for number, entries in case.slices():
        for entry in entries:
            if entry.kind == "look":
                first.setdefault((number, entry.thread, entry.op, entry.rest[0]), entry.rest[1])
    each = range(case.machine.slices)
    for at, entry in enumerate(case.journals.tree):
        for (domain, rmid), count in zip(history.needs[at], entry.counts):
            made = [(domain * case.machine.slices + own, entry.thread, entry.op, rmid) for own in each]
            missing = next((key for key in made if key not in first), None)
            if missing:
                return case.at_command(at, f"{case.name(missing[0])} has no look of it at RMID {rmid}")
            total = sum(first[key] for key in made)
            if count != total:
                return case.at_command(at, f"it was given {count} lines of RMID {rmid} in domain {domain}, and its looks count {total}")
    return None


def home(case, op, number):
    """The slice of an access."""
    return case.slice_of(domain_of(case.machine, op.cpu), op.cache_line(number))


def made_in(case, number, entries):
    """Of one slice, the positions of the entries of each command; or the first entry that is of no op, or that an access makes twice."""
    made, seen = defaultdict(list), {}
    for at, entry in enumerate(entries):
        op = case.ops.at(entry.thread, entry.op)
        key = (entry.thread, entry.op)
        if op is None:
            return made, seen, case.at_entry(number, at, "the script has no such op")
        if not op.is_access:
            made[key].append(at)
        elif home(case, op, entry.op) != number:
            return made, seen, case.at_entry(number, at, f"it belongs to {case.name(home(case, op, entry.op))}, by its CPU and its line")
        elif key in seen:
            return made, seen, case.at_entry(number, at, f"it has an entry before, in line {case.entry_line(number, seen[key])}")
        else:
            seen[key] = at
    return made, seen, None


def against_command(case, history, number, key, positions):
    """The place where the entries of a command in a slice are not those that it makes, or None."""
    owed = list(history.owed(history.positions[key], number))
    entries = case.journals.slices[number]
    for rank, at in enumerate(positions):
        if rank >= len(owed):
            return case.at_entry(number, at, f"it makes {len(owed)} entries here, and this is one more")
        if paid(entries[at]) != owed[rank]:
            return case.at_entry(number, at, f"of its entries here {listed(owed[rank : rank + 1])} comes next")
    if len(positions) < len(owed):
        missing = listed(owed[len(positions) :])
        return case.at_op(*key, f"{case.name(number)} has no entry of it for {missing}")
    return None


def made(case, history):
    """The first place where entries are not just those that the ops make, or None."""
    homes = set()
    for number, entries in case.slices():
        commands, seen, fault = made_in(case, number, entries)
        if fault:
            return fault
        homes.update(seen)
        found = (against_command(case, history, number, key, commands.get(key, [])) for key in history.positions)
        if fault := next((one for one in found if one), None):
            return fault
    for thread, number, op in case.ops.each():
        if op.is_access and (thread, number) not in homes:
            return case.at_op(thread, number, f"{case.name(home(case, op, number))} has no entry of it")
    return None
