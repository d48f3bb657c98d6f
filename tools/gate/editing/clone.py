"""A copy of the repository in which crates are checked with edits."""
import re
import shutil
import subprocess
import sys
import tempfile
from dataclasses import dataclass
from pathlib import Path

from editing.crates import PARTS, apply

STATUS = re.compile(r"^fn (\S+): (.*)$", re.M)
VERDICT = re.compile(r"^logic=(proved|not-proved)\b", re.M)
ERROR = re.compile(r"^(?:\./)?(\S+:\d+:\d+: error.*|fn \S+: (?:not proved|no proof: (?!it calls)).*)$", re.M)


@dataclass(frozen=True)
class Checked:
    """What a check said: whether the crate is proved (None where it came to no verdict), and of each function what it is."""

    is_proved: bool
    functions: dict
    said: str

    def first_error(self):
        found = ERROR.search(self.said)
        return (found.group(1) if found else self.said.strip().splitlines()[-1] if self.said.strip() else "nothing was said")[:160]


class Clone:
    """A copy of what the proofs read, with the libraries that the gate builds. It is removed in the end."""

    def __init__(self, top, crates):
        self.top, self.crates = top, crates
        start = subprocess.run(["rt", "doc"], stdout=subprocess.PIPE, text=True, check=True).stdout.strip()
        self.kit = Path(start).parent

    def __enter__(self):
        self.folder = Path(tempfile.mkdtemp(prefix="edits-"))
        self.folder.chmod(0o711)
        return self

    def __exit__(self, *_):
        shutil.rmtree(self.folder, ignore_errors=True)

    def prove(self, crates):
        """Copies these crates and those below them, and has the gate prove what it has not kept."""
        needed = [each for each in self.crates.all() if any(each in crate.below() for crate in crates)]
        print(f"edits: proving the {len(needed)} libraries below, or taking what the gate kept of them", flush=True)
        (self.folder / "crates.txt").write_text("".join(crate.line + "\n" for crate in needed))
        shutil.copy(self.top / "HANDLES", self.folder)
        for crate in needed:
            copy_parts(crate, self.folder / "crates" / crate.name)
        ran = subprocess.run(["rt", "ci"], cwd=self.folder, stdout=subprocess.PIPE, stderr=subprocess.STDOUT, text=True, check=False)
        if ran.returncode:
            sys.exit(f"{ran.stdout}edits: the crates are not proved as they stand")

    def library(self, crate):
        return self.folder / "crates" / crate.name / "out/rlib" / f"{crate.name}.rlib"

    def words(self, crate):
        """The words by which the prover checks a crate."""
        root = "src/main.rt" if (crate.folder / "src/main.rt").is_file() else "src/lib.rt"
        words = ["--crate-name", crate.name, root]
        for name in ["std", *crate.of_kit]:
            words += ["--extern", f"{name}={self.kit}/rlibs/{name}.rlib"]
        words += ["-L", f"dependency={self.kit}/rlibs"]
        for each in crate.uses:
            words += ["--extern", f"{each.name}={self.library(each)}"]
        for each in crate.below():
            words += ["-L", f"dependency={self.library(each).parent}"]
        logic = ["--antt-project", f"{self.kit}/rattle/logic/antt-project.json", "--logic-built", f"{self.kit}/logic_built"]
        return [*words, *logic, "--jobs", "1"]

    def check(self, crate, edits, kept=None):
        """Checks a crate with these edits, over what is kept in a folder if one is given."""
        with tempfile.TemporaryDirectory(prefix="edit-", dir=self.folder) as room:
            copy_parts(crate, Path(room))
            apply(edits, Path(room))
            over = ["--incremental", str(kept)] if kept else []
            ran = subprocess.run(
                [f"{self.kit}/bin/rattle", "check", *self.words(crate), *over],
                cwd=room, stdin=subprocess.DEVNULL, stdout=subprocess.PIPE, stderr=subprocess.STDOUT, text=True, errors="replace", check=False,
            )
        verdict = VERDICT.search(ran.stdout)
        is_proved = verdict and verdict.group(1) == "proved" and ran.returncode == 0
        return Checked(is_proved if verdict else None, dict(STATUS.findall(ran.stdout)), ran.stdout)

    def kept_folder(self, crate):
        """A new folder for what checks of a crate keep."""
        return Path(tempfile.mkdtemp(prefix=f"kept-{crate.name}-", dir=self.folder))


def copy_parts(crate, to):
    for part in PARTS:
        if (crate.folder / part).is_dir():
            shutil.copytree(crate.folder / part, to / part)
