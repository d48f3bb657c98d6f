"""Whether entries and ops stand in the order in which they have to."""


def after_commands(case, history):
    """The first entry that stands before one of a command that it has to follow, or None."""
    for number, entries in case.slices():
        places = [history.positions.get((entry.thread, entry.op)) for entry in entries]
        # Of the entries behind, the two commands that were taken first, each with an entry of it.
        first = second = None
        found = None
        for at in range(len(entries) - 1, -1, -1):
            entry, own = entries[at], places[at]
            late = next((one for one in (first, second) if one and one[0] != own and one[0] < entry.epoch), None)
            if late and case.ops.at(entry.thread, entry.op):
                found = at, late
            if own is not None:
                first, second = earliest(first, second, (own, at))
        if found:
            at, (command, later) = found
            because = f"its epoch is {entries[at].epoch}, and an entry of command {command} stands behind it, in line {case.entry_line(number, later)}"
            return case.at_entry(number, at, because)
    return None


def earliest(first, second, new):
    """The two commands of these three that were taken first, each once."""
    kept = {}
    for one in (first, second, new):
        if one:
            kept[one[0]] = one
    return (*[kept[key] for key in sorted(kept)[:2]], None)[:2]


def marks_of(case, history):
    """The epochs between which each op happened."""
    marks = {made: (at, at + 1) for made, at in history.positions.items()}
    for _, entries in case.slices():
        for entry in entries:
            if entry.kind == "access" and (entry.thread, entry.op) not in history.positions:
                marks[entry.thread, entry.op] = (entry.epoch, entry.epoch)
    return marks


def marks(case, history):
    """The first op that happened before one that comes before it in the script, or None."""
    times = marks_of(case, history)
    phase, own = 0, None
    # How late ops of earlier phases, of the present thread too, and of all threads so far came to an end, each with such an op.
    before = here = latest = (0, None)
    for thread, number, _ in case.ops.each():
        if thread != own:
            if case.ops.phases[thread] != phase:
                phase, before = case.ops.phases[thread], latest
            own, here = thread, before
        start, stop = times[thread, number]
        if start < here[0]:
            earlier = "{}.{}".format(*here[1])
            because = f"it happened at epoch {start}, and {earlier}, which comes before it, at epoch {here[0]}"
            return case.at_op(thread, number, because)
        if stop > here[0]:
            here = (stop, (thread, number))
        if stop > latest[0]:
            latest = here
    return None


def entries(case, history):
    """The first entry of a slice that stands behind one of an op that comes later, or None."""
    for number, all_entries in case.slices():
        phase, phase_at, last = 0, 0, {}
        for at, entry in enumerate(all_entries):
            own = case.ops.phases[entry.thread]
            op, before = last.get(entry.thread, (0, 0))
            if own < phase:
                because = f"it is of phase {own}, and behind an entry of phase {phase}, in line {case.entry_line(number, phase_at)}"
                return case.at_entry(number, at, because)
            if entry.op < op:
                because = f"it stands behind {entry.thread}.{op}, which comes later in its thread, in line {case.entry_line(number, before)}"
                return case.at_entry(number, at, because)
            phase, phase_at = own, at
            last[entry.thread] = (entry.op, at)
    return None
