"""The state of the tree: groups, tasks, CPUs, RMIDs in limbo and regions (docs/MODEL.md, "The tree")."""
from dataclasses import dataclass
from typing import NamedTuple

from .texts import runs_of

DEFAULT = 0
SHAREABLE, EXCLUSIVE, SETUP, LOCKED = "shareable", "exclusive", "pseudo-locksetup", "pseudo-locked"
# The first line of the first region, and how far those of two locks are apart.
FIRST_LINE, NEXT_LINE = 2**52, 2**32


@dataclass
class Group:
    """A group: its number, name, the number of its parent or None, mode, class, RMID, and its mask in each domain."""

    gid: int
    name: str
    parent: int | None
    mode: str
    klass: int | None
    rmid: int | None
    masks: list[int]

    @property
    def is_counted(self):
        """Whether this is a control group that may have tasks and CPUs."""
        return self.parent is None and self.mode in (SHAREABLE, EXCLUSIVE)


class Region(NamedTuple):
    """A pseudo-locked region: its group, mask and first line."""

    gid: int
    mask: int
    first_line: int


class Use(NamedTuple):
    """The ways of a domain that groups have of each mode, and its region."""

    shared: int
    exclusive: int
    region: int


class State:
    """The state of the tree, at first with the default group alone."""

    def __init__(self, machine, tasks):
        self.machine = machine
        every = 2**machine.ways - 1
        self.groups = [Group(DEFAULT, "", None, SHAREABLE, 0, 0, [every] * machine.domains)]
        self.tasks = {task: (DEFAULT, DEFAULT) for task in tasks}
        self.cpus = [(DEFAULT, None)] * machine.cpus
        self.limbo = []
        self.regions = [None] * machine.domains
        self.locks = 0
        self.threshold = machine.threshold
        self.next_gid = 1

    def group(self, gid):
        """The group of this number."""
        return next(group for group in self.groups if group.gid == gid)

    def group_at(self, place):
        """The group that a directory is about, or None where it does not exist."""
        owner = self.groups[0]
        if place.owner is not None:
            owner = next((group for group in self.groups if group.parent is None and group.gid and group.name == place.owner), None)
        if owner is None or place.monitor is None:
            return owner
        return next((group for group in self.groups if group.parent == owner.gid and group.name == place.monitor), None)

    def has(self, place):
        """Whether a directory exists, or the one that holds a file."""
        return place is not None and place.kind in ("directory", "file") and self.group_at(place) is not None

    def holds(self, folder):
        """Whether this directory exists, in which something stands or would stand."""
        return folder is not None and self.group_at(folder) is not None

    def monitors(self, gid):
        """The monitor groups of a control group."""
        return [group for group in self.groups if group.parent == gid]

    def rmids_with(self, group):
        """The RMID of a group, where it has one, and those of its monitor groups."""
        return [one.rmid for one in (group, *self.monitors(group.gid)) if one.rmid is not None]

    def is_closed(self, group):
        """Whether the control group of a group is in pseudo-locksetup or pseudo-locked."""
        return not (group if group.parent is None else self.group(group.parent)).is_counted

    def use(self, domain, other=None):
        """What all groups but one use of a domain."""
        shared = exclusive = 0
        for group in self.groups:
            if group.parent is None and group.gid != other:
                shared |= group.masks[domain] if group.mode == SHAREABLE else 0
                exclusive |= group.masks[domain] if group.mode == EXCLUSIVE else 0
        region = self.regions[domain]
        return Use(shared, exclusive, region.mask if region else 0)

    def free_class(self):
        """The lowest free class, or None."""
        used = {group.klass for group in self.groups}
        return next((number for number in range(self.machine.classes) if number not in used), None)

    def free_rmid(self):
        """The lowest free RMID, or None."""
        used = {group.rmid for group in self.groups} | set(self.limbo)
        return next((number for number in range(self.machine.rmids) if number not in used), None)

    def first_mask(self, domain):
        """The mask of a new group in a domain, or None where there is no space."""
        use, machine = self.use(domain), self.machine
        taken = (use.exclusive | use.region) & ~use.shared & ~machine.shareable
        free = (2**machine.ways - 1) & ~taken
        run, _ = runs_of(free)
        if not free or run < machine.min:
            return None
        return free if machine.sparse else (2**run - 1) * (free & -free)

    def region_of(self, place):
        """The domain and the region of the pseudo-locked group whose directory this is, or None."""
        if place.kind != "directory" or place.folder != "control":
            return None
        group = self.group_at(place)
        if group is None or group.mode != LOCKED:
            return None
        return next(((domain, region) for domain, region in enumerate(self.regions) if region and region.gid == group.gid), None)

    def owned(self, task, cpu):
        """Whose an access is: the number of its control group, its RMID, and its mask in the domain of the CPU."""
        control, counted = self.tasks[task]
        owner = control or self.cpus[cpu][0]
        if not counted:
            own, monitor = self.cpus[cpu]
            counted = own if monitor is None else monitor
        return owner, self.group(counted).rmid or 0, self.group(owner).masks[domain_of(self.machine, cpu)]


def domain_of(machine, cpu):
    """The domain of a CPU."""
    return cpu * machine.domains // machine.cpus
