"""The kernels that can be built, and where what is built is kept."""
from dataclasses import dataclass
import os
from pathlib import Path


class NotBuilt(RuntimeError):
    """Why there is no kernel, in one sentence."""


@dataclass(frozen=True)
class Version:
    """A Linux of Debian 12. `has_debug` is whether its resctrl shows RMIDs, by the mount option `debug`; `has_task_lists` whether it
    takes several ids in one write; `large_ids` is the line of its configuration by which processes can have ids up to 4,194,304."""

    name: str
    has_debug: bool
    has_task_lists: bool
    large_ids: str

    @property
    def package(self):
        return f"linux-source-{self.name}"


ALL = (
    Version("6.12", has_debug=True, has_task_lists=True, large_ids="# CONFIG_BASE_SMALL is not set"),
    Version("6.1", has_debug=False, has_task_lists=False, large_ids="CONFIG_BASE_FULL=y"),
)
VERSIONS = {version.name: version for version in ALL}
FIRST = "6.12"


def cache_folder():
    """Where kernels are kept, unless another folder is named."""
    return Path(os.environ.get("XDG_CACHE_HOME") or Path.home() / ".cache") / "bikhnoun" / "kernel"


@dataclass(frozen=True)
class Built:
    """What a build leaves: a kernel and the guest's first process."""

    folder: Path
    version: Version

    @property
    def kernel(self):
        return self.folder / f"linux-{self.version.name}"

    @property
    def init(self):
        return self.folder / f"init-{self.version.name}"

    @property
    def is_there(self):
        return self.kernel.exists() and self.init.exists()
