"""Writes: why they are refused, and what they do."""
from . import reasons, texts
from .freeing import free
from .groups import DEFAULT, EXCLUSIVE, FIRST_LINE, LOCKED, NEXT_LINE, Region, SETUP, SHAREABLE
from .making import lack_of_rmids
from .places import WRITTEN
from .reasons import refused
from .texts import BLANKS, Refusal

LINE_BYTES = 64


def cache_bytes(machine):
    """The bytes of one cache."""
    return machine.sets * machine.ways * LINE_BYTES


def against_mask(state, group, domain, mask):
    """What stands against a mask that is written to a group, or None."""
    use, apart = state.use(domain, group.gid), group.mode != SHAREABLE
    tests = (
        (mask & use.exclusive, refused(reasons.OVERLAP_EXCLUSIVE)), (mask & use.region, refused(reasons.OVERLAP_REGION)),
        (apart and mask & (use.shared | use.exclusive), refused(reasons.OVERLAP_OTHER)),
        (apart and mask & state.machine.shareable, refused(reasons.OVERLAP_SHAREABLE)),
        (group.mode == SETUP and use.region, refused(reasons.HAS_REGION, domain)),
    )
    return next((answer for holds, answer in tests if holds), None)


def against_schemata(state, group, text):
    """Why a write of `schemata` is refused, or None."""
    if group.mode == LOCKED:
        return refused(reasons.GROUP_LOCKED)
    try:
        masks = texts.schemata(state.machine, text)
    except Refusal as why:
        return why.answer
    if group.mode == SETUP and len(masks) > 1:
        return refused(reasons.ONE_DOMAIN)
    found = (against_mask(state, group, domain, mask) for domain, mask in masks.items())
    return next((answer for answer in found if answer), None)


def write_schemata(state, group, text):
    """Changes masks or locks a region, and answers what follows."""
    masks = texts.schemata(state.machine, text)
    if group.mode != SETUP:
        for domain, mask in masks.items():
            group.masks[domain] = mask
        return [("raise", domain) for domain in sorted(masks)]
    (domain, mask), *_ = masks.items()
    first_line = FIRST_LINE + state.locks * NEXT_LINE
    group.mode, group.klass, group.masks = LOCKED, None, [0] * state.machine.domains
    group.masks[domain] = mask
    state.regions[domain] = Region(group.gid, mask, first_line)
    state.locks += 1
    return [("lock", domain, mask, first_line)]


def against_setup(state, group):
    """What keeps a group out of pseudo-locksetup, or None."""
    tests = (
        (group.gid == DEFAULT, reasons.DEFAULT_GROUP), (state.monitors(group.gid), reasons.HAS_MON_GROUPS),
        (any(own == group.gid for own, _ in state.tasks.values()), reasons.HAS_TASKS),
        (any(own == group.gid for own, _ in state.cpus), reasons.HAS_CPUS),
    )
    return next((refused(reason) for holds, reason in tests if holds), None)


def against_mode(state, group, text):
    """Why a write of `mode` is refused, or None."""
    mode = text.strip(BLANKS)
    if mode == group.mode:
        return None
    if group.mode == LOCKED:
        return refused(reasons.GROUP_LOCKED)
    if mode not in (SHAREABLE, EXCLUSIVE, SETUP):
        return refused(reasons.UNKNOWN_MODE)
    if mode == SETUP:
        return against_setup(state, group)
    uses = [(mask, state.use(domain, group.gid)) for domain, mask in enumerate(group.masks)]
    for mask, use in uses if group.mode == SETUP else ():
        if mask & use.exclusive:
            return refused(reasons.OVERLAP_EXCLUSIVE)
        if mask & use.region:
            return refused(reasons.OVERLAP_REGION)
    if mode == EXCLUSIVE and any(mask & (use.shared | use.exclusive | state.machine.shareable) for mask, use in uses):
        return refused(reasons.SCHEMATA_OVERLAP)
    return lack_of_rmids(state) if group.mode == SETUP else None


def freed_by_mode(group, text):
    """The RMID that a write of `mode` frees, where it frees one."""
    mode = text.strip(BLANKS)
    return [group.rmid] if mode != group.mode and mode == SETUP and group.rmid is not None else []


def write_mode(state, group, text, counts):
    """Changes a mode, and answers what follows."""
    mode = text.strip(BLANKS)
    if mode == group.mode:
        return []
    if mode == SETUP:
        free(state, freed_by_mode(group, text), counts)
        group.rmid = None
    elif group.mode == SETUP:
        group.rmid = state.free_rmid()
    group.mode = mode
    return [("raise", domain) for domain in range(state.machine.domains)]


def move_tasks(state, group, text, apply):
    """Moves the tasks of a text, or only looks, and answers why it ends before its last, or None."""
    if state.is_closed(group):
        return refused(reasons.LOCKING)
    moved = {}
    for element in texts.elements(text):
        task = texts.task_in(element)
        if task is None:
            return refused(reasons.BAD_TASK_LIST)
        if task not in state.tasks:
            return refused(reasons.NO_TASK, task)
        own, _ = moved.get(task, state.tasks[task])
        if group.parent is not None and own != group.parent:
            return refused(reasons.OTHER_CONTROL, task)
        moved[task] = (group.gid if group.parent is None else own, group.gid)
        if apply:
            state.tasks[task] = moved[task]
    return None


def cpus_read(state, name, text):
    """The CPUs that a text names."""
    return texts.cpus(state.machine, texts.mask_cpus(text) if name == "cpus" else texts.list_cpus(text))


def against_cpus(state, group, name, text):
    """Why a write of CPUs is refused, or None."""
    if state.is_closed(group):
        return refused(reasons.LOCKING)
    try:
        named = cpus_read(state, name, text)
    except Refusal as why:
        return why.answer
    if group.gid == DEFAULT and any(own == DEFAULT and cpu not in named for cpu, (own, _) in enumerate(state.cpus)):
        return refused(reasons.DROPS_DEFAULT)
    if group.parent is not None and any(state.cpus[cpu][0] != group.parent for cpu in named):
        return refused(reasons.NOT_PARENTS)
    return None


def write_cpus(state, group, name, text):
    """Gives a group these CPUs, and takes the others from it."""
    named = cpus_read(state, name, text)
    for cpu, (own, monitor) in enumerate(state.cpus):
        if group.parent is None:
            state.cpus[cpu] = (group.gid, None) if cpu in named else (DEFAULT, None) if own == group.gid else (own, monitor)
        else:
            state.cpus[cpu] = (own, group.gid if cpu in named else None if monitor == group.gid else monitor)


def against_threshold(state, text):
    """Why a write of the threshold is refused, or None."""
    within = texts.decimal(text.strip(BLANKS), cache_bytes(state.machine) + 1) is not None
    return None if within else refused(reasons.BAD_THRESHOLD)


def against_write(state, place, text):
    """Why a write is refused, or None."""
    if place.kind != "file" or not state.has(place):
        return refused(reasons.NO_SUCH_PATH)
    if place.name not in WRITTEN:
        return refused(reasons.ONLY_READ)
    group = state.group_at(place)
    tests = {
        "schemata": lambda: against_schemata(state, group, text), "mode": lambda: against_mode(state, group, text),
        "tasks": lambda: move_tasks(state, group, text, False), "max_threshold_occupancy": lambda: against_threshold(state, text),
    }
    return tests.get(place.name, lambda: against_cpus(state, group, place.name, text))()
