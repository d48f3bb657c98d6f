"""The machines of random scripts."""
from dataclasses import dataclass

MACHINES = (
    "domains=2 sets=64 ways=8 classes=5 rmids=12 cpus=4",
    "domains=1 sets=64 ways=4 classes=4 rmids=5 cpus=2",
    "domains=3 sets=32 ways=11 classes=8 rmids=16 cpus=6 shareable=600",
    "domains=2 sets=64 ways=20 classes=4 rmids=8 cpus=8 min=2 shareable=c0000",
    "domains=4 sets=16 ways=12 classes=16 rmids=24 cpus=4",
    "domains=2 sets=64 ways=16 classes=6 rmids=10 cpus=4 sparse=1",
    "domains=1 sets=64 ways=32 classes=3 rmids=4 cpus=1",
    "domains=8 sets=16 ways=5 classes=5 rmids=9 cpus=16 min=2",
    "domains=2 sets=32 ways=10 classes=4 rmids=12 cpus=34",
)


@dataclass(frozen=True)
class Shape:
    """What of a machine decides which texts are valid. `least` is the fewest bits of a mask."""

    domains: int
    ways: int
    cpus: int
    least: int
    has_gaps: bool

    @classmethod
    def of(cls, keys):
        """The shape of the keys of a machine line."""
        values = {"min": "1", "sparse": "0"} | dict(word.split("=") for word in keys.split())
        return cls(int(values["domains"]), int(values["ways"]), int(values["cpus"]), int(values["min"]), values["sparse"] == "1")
