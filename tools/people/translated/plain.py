"""A script of `resctrl_sim` while it is made."""
from bikhnoun.telling import Stopped
from explained.limits import SCRIPT_BYTES, TEXT_BYTES, WEIGHT
from resctrl_sim.programs import INVALID
from tracing import LINE_BYTES

MOST_RMIDS = 256


class Plain:
    """The lines after the machine, with what they weigh for each domain: how much without removals, and how many removals there are."""

    def __init__(self, keys, about, tasks):
        self.keys = keys
        self.about = about
        self.lines = [f"tasks {tasks}"] * bool(tasks) + ["phase", "thread"]
        self.domains = keys["domains"]
        self.ops = 0
        self.weight = 0
        self.removals = 0
        self.made = self.groups = self.most_groups = 1

    def command(self, line, weight=1):
        """Adds a command."""
        self.lines.append(line)
        self.ops += 1
        self.weight += weight

    def comment(self, text):
        self.lines.append(f"# {text}")

    def mkdir(self, path):
        self.command(f"mkdir {path}")
        self.made += 1
        self.groups += 1
        self.most_groups = max(self.most_groups, self.groups)

    def rmdir(self, path):
        self.command(f"rmdir {path}")
        self.groups -= 1
        self.removals += 1

    def masks(self, path, masks):
        """Writes the masks of a group, by domain."""
        self.command(f"write {path}/schemata L3:{';'.join(f'{domain}={mask:x}' for domain, mask in enumerate(masks))}", self.domains + 1)

    def mode(self, path, mode):
        self.command(f"write {path}/mode {mode}", 2 * self.domains + 1)

    def move(self, path, tasks):
        """Moves tasks into a group, by as few writes as their length allows."""
        text = ""
        for task in map(str, tasks):
            if text and len(text) + 1 + len(task) > TEXT_BYTES:
                self.command(f"write {path}/tasks {text}")
                text = ""
            text += f",{task}" if text else task
        if text:
            self.command(f"write {path}/tasks {text}")

    def read(self, path):
        self.command(f"read {path}")

    def flush(self):
        self.command("flush", self.domains + 1)

    def use(self, task, cpu, address, count=1, stride=0):
        """Adds accesses."""
        self.lines.append(f"access {task} {cpu} {address}" if count == 1 else f"sweep {task} {cpu} {address} {count} {stride}")
        self.ops += count
        self.weight += count

    def weight_with(self, rmids):
        """The weight of the script on a machine with so many RMIDs."""
        return self.weight + self.removals * ((rmids + 1) * self.domains + 1)

    def counting(self):
        """The keys by which no group is refused for want of an RMID. Where it fits, each group has one that no line of memory has."""
        if self.made <= MOST_RMIDS and self.weight_with(self.made) <= WEIGHT:
            return {"rmids": self.made, "threshold": 0}
        return {"rmids": self.most_groups, "threshold": self.keys["sets"] * self.keys["ways"] * LINE_BYTES}

    def text(self):
        """The script. Stopped says which limit it would pass."""
        counting = self.counting()
        if (weight := self.weight_with(counting["rmids"])) > WEIGHT:
            raise Stopped(f"the plain script would weigh {weight}; a script of resctrl_sim weighs {WEIGHT} at most", INVALID)
        keys = self.keys | counting
        machine = " ".join(f"{key}={value:x}" if key == "shareable" else f"{key}={value}" for key, value in keys.items())
        lines = [*(f"# {line}" for line in self.about), f"machine {machine}", *self.lines]
        text = "".join(line + "\n" for line in lines)
        if len(text) > SCRIPT_BYTES:
            raise Stopped(f"the plain script would have {len(text)} bytes; a script of resctrl_sim has {SCRIPT_BYTES} at most", INVALID)
        return text
