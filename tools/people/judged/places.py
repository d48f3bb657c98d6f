"""What a path names: directories, files, groups, and what is none of them (docs/FORMAT.md, docs/FILE_TEXTS.md)."""
from typing import NamedTuple

GROUP_FILES = ("cpus", "cpus_list", "mode", "schemata", "size", "tasks")
MONITOR_FILES = ("cpus", "cpus_list", "tasks")
FILES = {
    "root": GROUP_FILES, "control": GROUP_FILES, "monitor": MONITOR_FILES, "domain": ("llc_occupancy",), "info": ("last_cmd_status",),
    "L3": ("bit_usage", "cbm_mask", "min_cbm_bits", "num_closids", "shareable_bits", "sparse_masks"),
    "L3_MON": ("max_threshold_occupancy", "mon_features", "num_rmids"),
}
# The fixed directories in a directory.
FOLDERS = {
    "root": ("info", "mon_data", "mon_groups"), "control": ("mon_data", "mon_groups"), "monitor": ("mon_data",), "info": ("L3", "L3_MON"),
}
# Files that may be written.
WRITTEN = ("cpus", "cpus_list", "tasks", "schemata", "mode", "max_threshold_occupancy")


class Place(NamedTuple):
    """What a path names.

    kind is `directory`, `file`, `free` (a name in a directory that can be neither there) or `nowhere` (below a file or a free name).
    folder is the directory, or the one that holds the file; owner and monitor are the names of its groups, None for the default group
    and for none; domain is that of a directory of counts, and name that of a file.
    """

    kind: str
    folder: str
    owner: str | None = None
    monitor: str | None = None
    domain: int = 0
    name: str = ""

    @property
    def is_group(self):
        """Whether this is the directory of a group that may be removed."""
        return self.kind == "directory" and self.folder in ("control", "monitor")


ROOT = Place("directory", "root")


def below(here, name, domains):
    """What a name below a place is."""
    if here.kind != "directory":
        return Place("nowhere", "")
    if name in FILES.get(here.folder, ()):
        return here._replace(kind="file", name=name)
    if name in FOLDERS.get(here.folder, ()):
        return here._replace(folder=name)
    if here.folder == "mon_data":
        numbers = [domain for domain in range(domains) if name == f"mon_L3_{domain:02}"]
        return here._replace(folder="domain", domain=numbers[0]) if numbers else here._replace(kind="free")
    if here.folder == "root":
        return Place("directory", "control", owner=name)
    if here.folder == "mon_groups":
        return Place("directory", "monitor", owner=here.owner, monitor=name)
    return here._replace(kind="free")


def place_of(path, domains):
    """What a path names on a machine with so many domains."""
    here = ROOT
    for name in path[1:].split("/") if path != "/" else ():
        here = below(here, name, domains)
    return here


def holder(place):
    """The directory that would hold what a path names, or None."""
    if place.kind == "nowhere":
        return None
    if place.kind != "directory":
        return place._replace(kind="directory")
    if place.folder in ("root", "info", "control"):
        return ROOT
    if place.folder in ("L3", "L3_MON"):
        return ROOT._replace(folder="info")
    if place.folder == "monitor":
        return place._replace(folder="mon_groups", monitor=None)
    if place.folder == "domain":
        return place._replace(folder="mon_data")
    return place._replace(folder="monitor" if place.monitor is not None else "root" if place.owner is None else "control")


def holds_groups(place):
    """Whether groups are made in a directory."""
    return place is not None and place.folder in ("root", "mon_groups")
