"""Which definitions the contracts of calls reach."""
from functools import cached_property

from believing.sources import Sources


class Reached:
    """The definitions of the crates, and what the contracts of calls stand on. A field of a record is named as `Record.field`."""

    def __init__(self):
        self.sources, self.names = Sources(), {}

    @cached_property
    def definitions(self):
        """The names of all definitions."""
        return {name for file in self.sources.spec_files() for name in file.parts}

    def is_definition(self, name):
        return name.split(".")[0] in self.definitions

    def names_of(self, call):
        """The names of all that the contract of a call reaches."""
        if call not in self.names:
            name = "::".join(filter(None, (call.owner, call.name)))
            self.names[call] = {part.name for part in self.sources.closure(self.sources.call(call.crate, name))[0]}
        return self.names[call]

    def by(self, calls, name):
        """Whether the contract of one of these calls reaches the definition of this name."""
        return any(name.split(".")[0] in self.names_of(call) for call in calls)
