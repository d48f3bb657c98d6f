"""Texts for each file, good and bad."""
BAD = 0.12
TASKS = (7, 8, 10, 16, 1000, 1001)
GROUP_BITS = 32

BAD_MASKS = ("0", "g", "", "+3", "0x3", "0X1", " 3 ", "00000003", "-1", "3 3")
BAD_SCHEMATA = (
    "", "L3", "L3:", "L3:;", "L3:0", "L3:0=", "L2:0=1", "MB:0=10", "L3:9=1", "L3:x=1", "L3:0=1;0=1", "L3:0=f; 1=f", "L3: 0=f",
    "L3:0 =f", "L3:0=f; ", " L3 :0=3", "L3:0= 3 ;", "L3:+0=3", "L3:0=3;", "L3::0=3", "l3:0=3", "L3:0=3;nonsense", "L3:-1=3",
    "L3:00=3", "L3:0==3", "L3:0=3;;", ";L3:0=3", "L3:18446744073709551616=1",
)
BAD_MODES = ("", "Exclusive", "exclusive ", " exclusive", "shareable\\n", "pseudo-locked", "shared")
BAD_TASKS = (
    "", " ", "7, ", "7,", ",", "7,,8", "7 8", "7, 8", "99", "7,99,8", "0", "010", "0x10", "+7", "-1", "2147483648", "x", "7x", "\\n7",
    "7\\n8", "4294967295", "08",
)
BAD_CPUS = (
    "", " ", "0x1", "0X1", "1,", ",1", "0,,1", "1 3", "all", "N", "0-3:1/2", "0,1", "00000000,00000001", "100", "64", "0-99", "1-0", "g",
    "1-", "-1", "00000000000000001", " 1", "1 ", "0,0,1", "123456789", "1\\n",
)
THRESHOLDS = (
    "64", "128", "0", "100", "128 ", " 128", "0x80", "0100", "+64", "-1", "x", "", "99999999999", "4294967296", "40000000", "64,",
)


class Texts:
    """Draws texts for a machine of some shape."""

    def __init__(self, rng, shape):
        self.rng = rng
        self.shape = shape

    def run_of_ways(self, longest):
        """A valid mask of at most so many ways."""
        width = self.rng.randint(self.shape.least, max(self.shape.least, longest))
        return f"{((1 << width) - 1) << self.rng.randint(0, self.shape.ways - width):x}"

    def mask(self):
        """Mostly a valid one; sometimes any number, one with a sign, or none."""
        if self.rng.random() < BAD / 2:
            return self.rng.choice((*BAD_MASKS, f"{self.rng.randrange(1 << self.shape.ways + 1):x}"))
        return self.run_of_ways(self.shape.ways // 2)

    def schemata(self):
        """A line for some of the domains."""
        if self.rng.random() < BAD:
            return self.rng.choice(BAD_SCHEMATA)
        domains = self.rng.sample(range(self.shape.domains), self.rng.randint(1, self.shape.domains))
        return "L3:" + ";".join(f"{domain}={self.mask()}" for domain in domains)

    def full_schemata(self):
        """A valid line for all domains."""
        return "L3:" + ";".join(f"{domain}={self.run_of_ways(self.shape.ways)}" for domain in range(self.shape.domains))

    def entry_of_a_lock(self):
        way = self.rng.randrange(self.shape.ways - self.shape.least + 1)
        return f"L3:{self.rng.randrange(self.shape.domains)}={(1 << self.shape.least) - 1 << way:x}"

    def mode(self):
        return self.rng.choice(BAD_MODES if self.rng.random() < BAD else ("exclusive", "exclusive", "shareable"))

    def tasks(self):
        if self.rng.random() < 2 * BAD:
            return self.rng.choice(BAD_TASKS)
        return ",".join(str(self.rng.choice(TASKS)) for _ in range(self.rng.randint(1, 3)))

    def cpus(self):
        """The name of a file of CPUs with a text for it."""
        if self.rng.random() < 2 * BAD:
            return f"{self.rng.choice(('cpus', 'cpus_list'))} {self.rng.choice(BAD_CPUS)}"
        cpus = self.rng.sample(range(self.shape.cpus), self.rng.randint(0, min(4, self.shape.cpus)))
        if self.rng.random() < 0.5:
            return f"cpus_list {','.join(map(str, cpus))}"
        high, low = divmod(sum(1 << cpu for cpu in cpus), 1 << GROUP_BITS)
        return f"cpus {high:x},{low:08x}" if high else f"cpus {low:x}"

    def threshold(self):
        return self.rng.choice(THRESHOLDS)
