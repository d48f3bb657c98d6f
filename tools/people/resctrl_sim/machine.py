"""The machine of a script."""
from dataclasses import dataclass, fields

LINE_BYTES = 64


@dataclass(frozen=True)
class Machine:
    """What the machine line of a script says. The ranges are in docs/FORMAT.md, and it is the program that tests them."""

    domains: int = 1
    sets: int = 64
    ways: int = 8
    classes: int = 8
    rmids: int = 16
    cpus: int | None = None
    min: int = 1
    shareable: int = 0
    threshold: int = 0
    slices: int = 1
    sparse: int = 0

    @classmethod
    def of(cls, keys):
        """The machine of a line's keys, as `domains=2 ways=12`. A ValueError tells of a key that there is not."""
        given = dict(word.split("=", 1) for word in keys.split())
        unknown = given.keys() - {field.name for field in fields(cls)}
        if unknown:
            raise ValueError(f"a machine has no {sorted(unknown)[0]}")
        return cls(**{key: int(text, 16 if key == "shareable" else 10) for key, text in given.items()})

    def __str__(self):
        """The keys of the machine line, those alone that are not as they are by default."""
        told = {field.name: getattr(self, field.name) for field in fields(self) if getattr(self, field.name) != field.default}
        return " ".join(f"{key}={value:x}" if key == "shareable" else f"{key}={value}" for key, value in told.items())

    @property
    def line(self):
        """The first line of a script."""
        return f"machine {self}".rstrip()

    @property
    def way_bytes(self):
        """How many bytes one way of a cache holds."""
        return self.sets * LINE_BYTES

    @property
    def all_ways(self):
        """The mask of all ways."""
        return 2**self.ways - 1
