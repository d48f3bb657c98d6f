"""Random scripts of racing threads, with commands of every kind."""
import random
from dataclasses import dataclass

# Control groups, and monitor groups below the default group and below a control group.
GROUPS = ("/a", "/b", "/c", "/k")
MONITORS = ("/mon_groups/m", "/mon_groups/n", "/a/mon_groups/m", "/b/mon_groups/m")
MODES = ("shareable", "exclusive", "pseudo-locksetup", "pseudo-locked", "another")
NO_PATHS = ("/none", "/info/none", "/mon_groups", "/a/b/c", "/tasks")
INFO = (
    "last_cmd_status", "L3/num_closids", "L3/cbm_mask", "L3/min_cbm_bits", "L3/shareable_bits", "L3/bit_usage", "L3/sparse_masks",
    "L3_MON/num_rmids", "L3_MON/mon_features", "L3_MON/max_threshold_occupancy",
)
MOST_THREADS = 16
MOST_OPS = 24


@dataclass(frozen=True)
class Machine:
    domains: int
    sets: int
    ways: int
    slices: int
    cpus: int
    rmids: int
    classes: int
    sparse: int
    threshold: int
    tasks: int

    def lines(self):
        keys = ("domains", "sets", "ways", "slices", "cpus", "rmids", "classes", "sparse", "threshold")
        words = " ".join(f"{key}={getattr(self, key)}" for key in keys)
        return [f"machine {words}", f"tasks 1-{self.tasks}"]


def machine_of(rng):
    domains = rng.choice((1, 1, 2, 3, 4))
    sets = rng.choice((1, 2, 4, 8))
    return Machine(
        domains=domains,
        sets=sets,
        ways=rng.choice((2, 4, 4, 8, 12)),
        slices=rng.choice([slices for slices in (1, 2, 4) if slices <= sets]),
        cpus=domains * rng.choice((1, 2, 3)),
        rmids=rng.choice((2, 3, 6, 12)),
        classes=rng.choice((2, 4, 6)),
        sparse=rng.choice((0, 0, 1)),
        threshold=rng.choice((0, 0, 64, 128)),
        tasks=rng.randint(1, 6),
    )


def mask_of(rng, machine):
    """A mask in hexadecimal: mostly some ways side by side, and at times any number."""
    if rng.random() < 0.15:
        return f"{rng.randrange(1 << machine.ways + 1):x}"
    low = rng.randrange(machine.ways)
    return f"{(1 << rng.randint(low + 1, machine.ways)) - (1 << low):x}"


def schemata_of(rng, machine):
    domains = rng.sample(range(machine.domains), rng.randint(1, machine.domains))
    return "L3:" + ";".join(f"{domain}={mask_of(rng, machine)}" for domain in domains)


def ids_of(rng, count, most):
    return ",".join(str(rng.randint(0, most)) for _ in range(rng.randint(0, count)))


def group_of(rng):
    return rng.choice(("", *GROUPS))


def file_of(rng, machine):
    """A file of a group, or of a monitor group, or one below /info, or none."""
    group = rng.choice(("", *GROUPS, *MONITORS))
    data = f"mon_data/mon_L3_{rng.randrange(machine.domains):02}/llc_occupancy"
    name = rng.choice(("schemata", "size", "mode", "tasks", "cpus", "cpus_list", data, data))
    return rng.choice((f"{group}/{name}", f"{group}/{name}", f"/info/{rng.choice(INFO)}", rng.choice(NO_PATHS)))


def write_of(rng, machine):
    group = group_of(rng)
    anywhere = rng.choice(("", *GROUPS, *MONITORS))
    return "write " + rng.choice((
        f"{group}/schemata {schemata_of(rng, machine)}",
        f"{group}/schemata {schemata_of(rng, machine)}",
        f"{group}/mode {rng.choice(MODES)}",
        f"{anywhere}/tasks {ids_of(rng, 3, machine.tasks + 1)}",
        f"{anywhere}/cpus {rng.randrange(1 << machine.cpus):x}",
        f"{anywhere}/cpus_list {ids_of(rng, 2, machine.cpus)}",
        f"/info/L3_MON/max_threshold_occupancy {rng.choice((0, 64, 128, 1000))}",
        f"{rng.choice(NO_PATHS)} 1",
    ))


def command_of(rng, machine):
    group = rng.choice((*GROUPS, *MONITORS))
    domain = rng.randrange(machine.domains)
    task, cpu = rng.randint(1, machine.tasks), rng.randrange(machine.cpus)
    kinds = {
        "write": (12, lambda: write_of(rng, machine)),
        "read": (4, lambda: f"read {file_of(rng, machine)}"),
        "list": (1, lambda: f"list {rng.choice(('/', '/mon_groups', '/info', '/a/mon_data', *GROUPS, *NO_PATHS))}"),
        "mkdir": (4, lambda: f"mkdir {rng.choice((group, group, rng.choice(NO_PATHS)))}"),
        "rmdir": (3, lambda: f"rmdir {rng.choice((group, group, rng.choice(NO_PATHS)))}"),
        "flush": (1, lambda: rng.choice(("flush", f"flush {domain}"))),
        "drop": (2, lambda: rng.choice((f"clflush {address_of(rng)}", f"clflush /k {address_of(rng)}"))),
        "touch": (2, lambda: f"touch /k {address_of(rng)} {task} {cpu}"),
        "tick": (2, lambda: "tick"),
    }
    kind = rng.choices(list(kinds), [weight for weight, _ in kinds.values()])[0]
    return kinds[kind][1]()


def address_of(rng):
    return 64 * rng.randrange(24) + rng.randrange(64)


def access_of(rng, machine):
    task, cpu = rng.randint(1, machine.tasks), rng.randrange(machine.cpus)
    if rng.random() < 0.2:
        return f"sweep {task} {cpu} {address_of(rng)} {rng.randint(1, 16)} 64"
    return f"access {task} {cpu} {address_of(rng)}"


def thread_of(rng, machine):
    share = rng.choice((0.2, 0.5, 0.8))
    ops = (command_of if rng.random() < share else access_of for _ in range(rng.randint(1, MOST_OPS)))
    return ["thread", *(op(rng, machine) for op in ops)]


def opening_of(rng, machine):
    """A phase of one thread that makes groups, and at times a region."""
    lines = ["phase", "thread", f"write /schemata {schemata_of(rng, machine)}"]
    for group in rng.sample(GROUPS[:3], rng.randint(0, 3)):
        lines += [f"mkdir {group}", f"write {group}/schemata {schemata_of(rng, machine)}"]
        if rng.random() < 0.5:
            lines += [f"write {group}/mode exclusive", f"write {group}/tasks {rng.randint(1, machine.tasks)}"]
    if rng.random() < 0.4:
        lines += ["mkdir /k", "write /k/mode pseudo-locksetup", f"write /k/schemata L3:0={mask_of(rng, machine)}"]
    return lines


def script_of(number):
    """The script of a number, always the same: a machine, an opening, and one or two phases of 2 to 16 threads."""
    rng = random.Random(f"storm {number}")
    machine = machine_of(rng)
    lines = machine.lines() + (opening_of(rng, machine) if rng.random() < 0.8 else [])
    for _ in range(rng.choice((1, 1, 2))):
        lines.append("phase")
        for _ in range(rng.randint(2, MOST_THREADS)):
            lines += thread_of(rng, machine)
    return "".join(line + "\n" for line in lines)
