"""mkdir and rmdir: why they are refused, and what they do."""
from . import reasons
from .freeing import free
from .groups import DEFAULT, Group, SHAREABLE
from .places import holder, holds_groups
from .reasons import refused


def lack_of_rmids(state):
    """The refusal where no RMID is free, or None."""
    if state.free_rmid() is not None:
        return None
    return refused(reasons.RMIDS_BUSY if state.limbo else reasons.OUT_OF_RMIDS)


def against_mkdir(state, place):
    """Why a mkdir is refused, or None."""
    folder = holder(place)
    if not state.holds(folder):
        return refused(reasons.NO_SUCH_PATH)
    if state.has(place):
        return refused(reasons.EXISTS)
    if not holds_groups(folder):
        return refused(reasons.NOT_A_PLACE)
    if place.folder == "control":
        if state.free_class() is None:
            return refused(reasons.OUT_OF_CLOSIDS)
        full = [domain for domain in range(state.machine.domains) if state.first_mask(domain) is None]
        if full:
            return refused(reasons.NO_SPACE, full[0])
    elif state.is_closed(state.group_at(folder)):
        return refused(reasons.LOCKING)
    return lack_of_rmids(state)


def mkdir(state, place):
    """Makes a group."""
    rmid, gid, domains = state.free_rmid(), state.next_gid, range(state.machine.domains)
    if place.folder == "control":
        masks = [state.first_mask(domain) for domain in domains]
        group = Group(gid, place.owner, None, SHAREABLE, state.free_class(), rmid, masks)
    else:
        parent = state.group_at(holder(place)).gid
        group = Group(gid, place.monitor, parent, SHAREABLE, None, rmid, [0 for _ in domains])
    state.groups.append(group)
    state.next_gid += 1


def against_rmdir(state, place):
    """Why an rmdir is refused, or None."""
    if not state.has(place):
        return refused(reasons.NO_SUCH_PATH)
    return None if place.is_group else refused(reasons.NOT_A_PLACE)


def freed_by_rmdir(state, place):
    """The RMIDs that an rmdir frees, in order."""
    return state.rmids_with(state.group_at(place))


def rmdir(state, place, counts):
    """Removes a group, with its monitor groups and its region."""
    group = state.group_at(place)
    free(state, freed_by_rmdir(state, place), counts)
    gid = group.gid
    if group.parent is not None:
        state.groups.remove(group)
        state.tasks = {task: (own, own if counted == gid else counted) for task, (own, counted) in state.tasks.items()}
        state.cpus = [(own, None if monitor == gid else monitor) for own, monitor in state.cpus]
        return
    state.groups = [one for one in state.groups if gid not in (one.gid, one.parent)]
    state.tasks = {task: (DEFAULT, DEFAULT) if bound[0] == gid else bound for task, bound in state.tasks.items()}
    state.cpus = [(DEFAULT, None) if bound[0] == gid else bound for bound in state.cpus]
    state.regions = [None if region and region.gid == gid else region for region in state.regions]
