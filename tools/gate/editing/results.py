"""What each edit came to, kept from run to run."""
import hashlib
import json
import subprocess
from functools import cached_property
from threading import Lock

REFUSED, PROVED, UNTRIED = "refused", "not refused", "not tried"


class Results:
    """What the edits came to. Each is kept under a sum of the kit, the crate, all below it and the edit."""

    def __init__(self, folder, crates):
        self.folder, self.crates, self.lock, self.known = folder, crates, Lock(), {}

    @cached_property
    def kit(self):
        return subprocess.run(["rt", "version"], stdout=subprocess.PIPE, text=True, check=True).stdout

    def sum_of(self, crate, edit):
        return hashlib.sha256("\n".join((self.kit, crate.sum, edit.text)).encode()).hexdigest()

    def read(self, crate):
        """What is kept of a crate's edits."""
        with self.lock:
            if crate.name not in self.known:
                path = self.folder / f"{crate.name}.json"
                self.known[crate.name] = json.loads(path.read_text()) if path.is_file() else {}
            return self.known[crate.name]

    def of(self, crate, edit):
        """What an edit came to, and why."""
        kind, why = self.read(crate).get(self.sum_of(crate, edit), (UNTRIED, "run the command again"))
        return kind, why

    def open_edits(self, crate):
        return [edit for edit in crate.edits() if self.of(crate, edit)[0] != REFUSED]

    def keep(self, crate, edit, kind, why):
        found = self.read(crate)
        with self.lock:
            found[self.sum_of(crate, edit)] = (kind, why)
            self.folder.mkdir(parents=True, exist_ok=True)
            path = self.folder / f"{crate.name}.json"
            path.with_suffix(".new").write_text(json.dumps(found, indent=0))
            path.with_suffix(".new").replace(path)
