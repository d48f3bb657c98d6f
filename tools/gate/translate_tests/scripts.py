"""Random scripts of `resctrl_cdp` and `resctrl_l2`: groups, masks, modes and tasks, many of whose commands are refused, and uses between."""
import random

LINE_BYTES = 64
NAMES = ("a", "b", "a.code", "c")
FILES = ("schemata", "mode", "tasks")


class Dice(random.Random):
    """Chances, the same ones for each number."""

    def run_of_ways(self, ways, least=1):
        """A mask of adjacent ways."""
        count = min(ways, least + min(self.randrange(ways), self.randrange(ways)))
        return (2**count - 1) << self.randrange(ways - count + 1)

    def mask(self, ways, least):
        """A mask, now and then a wrong one."""
        return self.randrange(2 ** (ways + 1)) if not self.randrange(12) else self.run_of_ways(ways, least)


class Maker:
    """A script that is made line by line."""

    def __init__(self, number, resources):
        self.dice = dice = Dice(number)
        self.resources = resources
        self.domains, self.least = dice.choice((1, 1, 2)), dice.choice((1, 1, 1, 2))
        self.cpus = self.domains * dice.choice((1, 2, 4))
        self.tasks = range(1, dice.randint(2, 5) + 1)
        self.sets, self.ways = dice.choice((1, 2, 4)), dice.randint(2, 8)
        self.keys = [f"domains={self.domains} sets={self.sets} ways={self.ways} cpus={self.cpus}"]
        self.keys += [f"min={self.least} classes={dice.choice((2, 4, 7, 8, 12))} sparse={int(not dice.randrange(6))}"]
        self.keys += [f"shareable={1 << self.ways - 1:x}"] * (not dice.randrange(6))
        # The resources with their domains and their ways.
        self.shapes = dict.fromkeys(resources, (self.domains, self.ways))
        self.lines = []

    def group(self):
        """The path of a group, that of the default one being empty."""
        return self.dice.choice(["", *(f"/{name}" for name in NAMES[: self.dice.randint(1, len(NAMES))])])

    def masks(self, resource):
        """A line for schemata."""
        domains, ways = self.shapes[resource]
        named = self.dice.sample(range(domains), self.dice.randint(1, domains))
        return f"{resource}:" + ";".join(f"{domain}={self.dice.mask(ways, self.least):x}" for domain in named)

    def command(self):
        """The line of a command."""
        dice, group = self.dice, self.group()
        kind = dice.randrange(20)
        if kind < 3:
            return f"mkdir {group or '/a'}"
        if kind == 3:
            return f"rmdir {group or '/b'}"
        if kind < 5:
            return f"read {group}/{dice.choice(FILES)}"
        if kind < 8:
            tasks = dice.sample([*self.tasks, dice.choice((1, 99))], dice.randint(1, 2))
            return f"write {group}/tasks {','.join(map(str, tasks))}"
        if kind < 11:
            return f"write {group}/mode {dice.choice(('exclusive', 'exclusive', 'exclusive ', 'shareable'))}"
        if kind == 11:
            return "flush"
        lines = dice.sample(self.resources, dice.randint(1, len(self.resources)))
        return f"write {group}/schemata " + "\\n".join(map(self.masks, lines))

    def address(self, task):
        """An address: each task has lines of its own, and all have some in common."""
        region = self.dice.choice((task, task, task, 0))
        return (region * 2**20 + self.dice.randrange(self.sets * self.ways + 2)) * LINE_BYTES + self.dice.randrange(LINE_BYTES)

    def uses(self):
        """Adds lines of uses."""
        raise NotImplementedError

    def tenants(self):
        """Adds groups that are likely apart and exclusive, and a flush, so that there are windows."""
        ways = {resource: shape[1] for resource, shape in self.shapes.items()}
        least = min(ways.values()) // 2
        if least < self.least or len(self.resources) * self.least > least:
            return
        for half, group in enumerate(("", "/a")):
            self.lines += [f"mkdir {group}"] * bool(group)
            for resource, mask in self.shares(half).items():
                masks = ";".join(f"{domain}={mask:x}" for domain in range(self.shapes[resource][0]))
                self.lines.append(f"write {group}/schemata {resource}:{masks}")
        self.lines += ["write /a/mode exclusive", "write /a/tasks 1", "write /mode exclusive", "flush"]

    def shares(self, half):
        """The masks of one of two tenants, by resource."""
        raise NotImplementedError

    def text(self):
        """The script."""
        dice = self.dice
        if dice.randrange(3):
            self.tenants()
        for _ in range(dice.randint(4, 40)):
            if dice.randrange(3):
                self.uses()
            else:
                self.lines.append(self.command())
        # At the end each file of each group that may be there is read.
        self.lines += [f"read {group}/{file}" for group in ("", *(f"/{name}" for name in NAMES)) for file in FILES]
        head = [f"machine {' '.join(self.keys)}", f"tasks {' '.join(map(str, self.tasks))}"]
        return "".join(line + "\n" for line in head + self.lines)


class CodeAndData(Maker):
    """A script of `resctrl_cdp`."""

    def __init__(self, number):
        super().__init__(number, ("L3DATA", "L3CODE"))

    def shares(self, half):
        quarter = self.ways // 4 or 1
        shift = 2 * quarter * half
        return {"L3DATA": (2**quarter - 1) << shift, "L3CODE": (2**quarter - 1) << shift + quarter}

    def uses(self):
        task = self.dice.choice(self.tasks)
        self.lines.append(f"trace {task} {self.dice.randrange(self.cpus)}")
        for _ in range(self.dice.randint(1, 12)):
            kind = self.dice.choice(("I ", "I ", " L", " S", " M"))
            size = self.dice.choice((1, 4, 8, 64, 200))
            blank = self.dice.choice((" ", " ", "  ", "\t "))
            self.lines.append(f"{kind}{blank}{self.address(task):x},{size}")
        self.lines += self.dice.choice(([], ["==1== said"], [""])) + ["end"]


class Levels(Maker):
    """A script of `resctrl_l2`."""

    def __init__(self, number):
        super().__init__(number, ("L2", "L3"))
        most = self.cpus // self.domains
        below = self.domains * self.dice.choice([count for count in (1, 2, 4) if count <= most])
        l2_ways = self.dice.randint(max(2, self.least), 6)
        self.keys.append(f"l2_domains={below} l2_sets={self.dice.choice((1, 2))} l2_ways={l2_ways}")
        self.shapes["L2"] = (below, l2_ways)

    def shares(self, half):
        halves = {resource: shape[1] // 2 for resource, shape in self.shapes.items()}
        return {resource: (2**ways - 1) << ways * half for resource, ways in halves.items()}

    def uses(self):
        for _ in range(self.dice.randint(1, 8)):
            task = self.dice.choice(self.tasks)
            place = f"{task} {self.dice.randrange(self.cpus)} {self.address(task)}"
            sweep = f"sweep {place} {self.dice.randint(1, 12)} {self.dice.choice((0, 8, 64, 128))}"
            self.lines.append(self.dice.choice((f"access {place}", sweep)))
