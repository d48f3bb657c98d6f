"""This host's L3 caches and CPUs, as sysfs tells them, and the machine of a script that is nearest to them."""
from dataclasses import dataclass
from pathlib import Path

SYSFS = Path("/sys/devices/system/cpu")
L3 = "3"
MOST = {"domains": 8, "ways": 32, "cpus": 64}
MOST_SETS = 65_536
MOST_LINES = 1_048_576


@dataclass(frozen=True)
class Cache:
    """An L3: its number, its shape where sysfs tells it, and its CPUs."""

    id: int
    ways: int | None
    sets: int | None
    cpus: tuple[int, ...]


@dataclass(frozen=True)
class Host:
    """The CPUs that are online, and their L3 caches by number."""

    cpus: tuple[int, ...]
    caches: tuple[Cache, ...]

    @classmethod
    def read(cls, root=SYSFS):
        """What sysfs tells below a folder."""
        root = Path(root)
        cpus = tuple(cpus_of(text(root / "online") or "0"))
        found = {}
        for cpu in cpus:
            for index in sorted((root / f"cpu{cpu}" / "cache").glob("index*")):
                if text(index / "level") == L3:
                    cache = cache_at(index, len(found))
                    found.setdefault(cache.cpus, cache)
        return cls(cpus, tuple(sorted(found.values(), key=lambda cache: cache.id)))


def text(path):
    """The text of a file, or None where it cannot be read."""
    try:
        return path.read_text(encoding="ascii").strip()
    except (OSError, UnicodeDecodeError):
        return None


def number(path):
    """The number in a file, or None where there is none or it is 0."""
    found = text(path)
    return int(found) or None if found and found.isdigit() else None


def cache_at(index, count):
    """A cache by its folder. Where no file tells its number, it is how many there are already."""
    told = text(index / "id")
    ways, sets = number(index / "ways_of_associativity"), number(index / "number_of_sets")
    return Cache(int(told) if told else count, ways, sets, tuple(cpus_of(text(index / "shared_cpu_list") or "")))


def cpus_of(ranges):
    """The CPUs of a list, as `0-3,8`."""
    pairs = (part.partition("-") for part in ranges.split(",") if part)
    return [cpu for first, _, last in pairs for cpu in range(int(first), int(last or first) + 1)]


class Nearest:
    """The machine that is nearest to a host's: its keys, and what is another there, in words. Keys that are given stay."""

    def __init__(self, host, given=()):
        self.given = dict(given)
        self.remarks = []
        sizes = {"sets": 64, "ways": 8} | sizes_of(host)
        self.keys = {"domains": max(len(host.caches), 1), "ways": sizes["ways"], "cpus": max(host.cpus) + 1} | self.given
        for key, most in MOST.items():
            self.at_most(key, most)
        if self.keys["cpus"] < self.keys["domains"]:
            self.set("cpus", self.keys["domains"], "each domain has a CPU at least")
        self.keys.setdefault("sets", sizes["sets"])
        self.fit_sets()
        self.compare(host)

    def set(self, key, value, why):
        """Takes another number, unless the key was given."""
        if key not in self.given and self.keys[key] != value:
            self.remarks.append(f"{key}={value} and not {self.keys[key]}: {why}")
            self.keys[key] = value

    def at_most(self, key, most):
        self.set(key, min(self.keys[key], most), f"a machine has {most} {key} at most")

    def fit_sets(self):
        """Brings the sets to a power of two, of which all caches have room for their lines."""
        if "sets" in self.given:
            return
        low = 1 << (self.keys["sets"].bit_length() - 1)
        self.set("sets", low if 2 * self.keys["sets"] < 3 * low else 2 * low, "sets are a power of two")
        most, lines_of_a_set = MOST_SETS, max(self.keys["domains"] * self.keys["ways"], 1)
        while most * lines_of_a_set > MOST_LINES:
            most //= 2
        self.set("sets", min(self.keys["sets"], most), f"caches of a machine have {MOST_LINES} lines at most")

    def compare(self, host):
        """Tells of caches that sysfs does not tell, and of CPUs that are offline or in another one than here."""
        if not host.caches:
            self.remarks.append("sysfs tells no L3 of this host")
        offline = sorted(set(range(self.keys["cpus"])) - set(host.cpus)) if "cpus" not in self.given else []
        if offline:
            self.remarks.append(f"CPU {offline[0]} is offline on the host, and here every CPU is there")
        ids = [cache.id for cache in host.caches]
        if ids != list(range(len(ids))):
            self.remarks.append(f"the L3 caches have the numbers {', '.join(map(str, ids))} on the host, and here those from 0")
        if len(ids) == self.keys["domains"]:
            self.compare_cpus(host)

    def compare_cpus(self, host):
        domains, cpus = self.keys["domains"], self.keys["cpus"]
        for domain, cache in enumerate(host.caches):
            others = [cpu for cpu in cache.cpus if cpu < cpus and cpu * domains // cpus != domain]
            if others:
                self.remarks.append(f"CPU {others[0]} has L3 {cache.id} on the host, and domain {others[0] * domains // cpus} here")
                return

    def __str__(self):
        return " ".join(f"{key}={value}" for key, value in self.keys.items())


def machine_keys(words, host):
    """The keys of a machine line in which the word `host` stands for those of a host that are not given, and the remarks on them."""
    others = [word for word in words.split() if word != "host"]
    pairs = {key: value for key, _, value in (word.partition("=") for word in others)}
    numbers = {key: value for key, value in pairs.items() if key in (*MOST, "sets")}
    if not all(value.isdigit() for value in numbers.values()):
        # The program says what is wrong with such a word.
        return " ".join(others), []
    nearest = Nearest(host, {key: int(value) for key, value in numbers.items()})
    return " ".join([*(word for word in str(nearest).split() if word.partition("=")[0] not in pairs), *others]), nearest.remarks


def sizes_of(host):
    """The sets and ways of a host's caches, as far as they are told: those of the first."""
    first = next(iter(host.caches), None)
    return {key: value for key in ("sets", "ways") if (value := getattr(first, key, None))}
