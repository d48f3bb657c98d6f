"""A script around the line that gives a group its ways, and one play of it."""
import subprocess
from typing import NamedTuple


class Sweep(NamedTuple):
    """The script, around the line that gives the group its ways, and the reads of all groups' masks that follow it."""
    group: str
    domains: int
    before: str
    after: str
    reads: str
    reading_thread: int

    @property
    def path(self):
        return self.group.rstrip("/") + "/schemata"

    def write(self, mask):
        """The line that gives the group this mask in every domain."""
        return f"write {self.path} L3:" + ";".join(f"{domain}={mask:x}" for domain in range(self.domains))


def is_mask_line(line, group):
    """Whether a line writes the group's schemata."""
    return line.split()[:2] == ["write", group.rstrip("/") + "/schemata"]


def machine_number(lines, key, default):
    """A number of the machine line, or what it is where the line does not say."""
    line = next(line for line in lines if line.split()[:1] == ["machine"])
    return next((int(word.split("=")[1]) for word in line.split() if word.startswith(key + "=")), default)


def control_groups(lines):
    """The paths of the default group, and of those that the script may make."""
    made = [line.split()[1] for line in lines if line.split()[:1] == ["mkdir"] and len(line.split()) == 2]
    return ["/"] + list(dict.fromkeys(path for path in made if path.count("/") == 1))


def sweep_of(lines, group):
    """The script of these lines, taken apart."""
    first = next(at for at, line in enumerate(lines) if is_mask_line(line, group))
    kept = [line for line in lines[first + 1:] if not is_mask_line(line, group)]
    reads = ["phase", "thread"] + [f"read {path.rstrip('/')}/schemata" for path in control_groups(lines)]
    before, after, reads = ("".join(line + "\n" for line in part) for part in (lines[:first], kept, reads))
    threads = sum(line.split() == ["thread"] for line in lines)
    return Sweep(group, machine_number(lines, "domains", 1), before, after, reads, threads)


def play(program, before, line, after, reads):
    """Plays the script with this line, and where there is room the reads: the exit status, and what was written."""
    for parts in ((before, line, "\n", after, reads), (before, line, "\n", after)):
        done = subprocess.run([program, "step", "--json"], input="".join(parts), stdout=subprocess.PIPE, text=True, check=False)
        if not (done.returncode == 1 and "too large" in done.stdout):
            break
    return done.returncode, done.stdout
