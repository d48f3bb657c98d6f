"""Storms of `--windows`: exclusive groups whose masks and modes change, and lines far from one another."""
from storms.limits import MOST_WEIGHT, WAYS
from storms.row import Row

TENANTS = WAYS - 1
FAR = 64 * 2_000


def masks(domains, mask):
    """A text of `schemata` with the same mask in so many caches."""
    return "L3:" + ";".join(f"{domain}={mask:x}" for domain in range(domains))


def tenants(script, machine, domains=1):
    """Groups that are exclusive on one way each of every cache, each with a task of its own."""
    ids = " ".join(str(tenant) for tenant in range(1, TENANTS + 1))
    script.write(f"{machine} ways={WAYS} classes={WAYS} rmids={WAYS}\ntasks {ids}\nphase\nthread\n")
    script.write(f"write /schemata {masks(domains, 1 << TENANTS)}\n")
    for tenant in range(TENANTS):
        group = f"/tenant{tenant}"
        script.write(f"mkdir {group}\nwrite {group}/schemata {masks(domains, 1 << tenant)}\nwrite {group}/mode exclusive\n")
        script.write(f"write {group}/tasks {tenant + 1}\n")


def toggled(script, count, domains):
    """The masks of one of thirty exclusive groups, written over and over."""
    machine = f"machine domains={domains} cpus={domains} sets=64 ways={WAYS} classes=64 rmids=64"
    script.write(f"{machine}\nphase\nthread\nwrite /schemata {masks(domains, 1 << WAYS - 1)}\n")
    for at in range(TENANTS - 1):
        mask = masks(domains, 1 << at + 1 if at else 1)
        script.write(f"mkdir /g{at}\nwrite /g{at}/schemata {mask}\nwrite /g{at}/mode exclusive\n")
    script.write("write /g0/schemata L3:0=3\nwrite /g0/schemata L3:0=1\n" * (count // 2))


def toggle_full(script, count):
    toggled(script, count, 1)


def win_toggle8(script, count):
    toggled(script, count, 8)


def win_toggle8_flush(script, count):
    """The same, before windows of all thirty groups in each cache."""
    toggled(script, count, 8)
    script.write("flush\n")


def win_modes(script, count):
    """A mode that changes, and a flush, beside 30 exclusive groups."""
    tenants(script, "machine sets=64")
    script.write("write /tenant0/mode shareable\nflush\nwrite /tenant0/mode exclusive\nflush\n" * (count // 4))


def reads_of_mode(script, count):
    """Commands that change nothing, beside 31 exclusive groups in eight caches."""
    tenants(script, "machine domains=8 sets=1 cpus=8", 8)
    script.write("flush\n" + "read /mode\n" * count)


def window_of_many(script, count):
    """One window of each of 31 exclusive groups, whose tasks go over a thousand lines of their own in turn."""
    tenants(script, "machine sets=1024")
    sweeps = "".join(f"sweep {tenant + 1} 0 {tenant << 20} 1000 64\n" for tenant in range(TENANTS))
    script.write("flush\n" + sweeps * (count // (TENANTS * 1000)))


def masks_among_many(script, count):
    """Masks of 63 groups in eight caches, written over and over."""
    script.write("machine domains=8 sets=1 ways=32 classes=64 rmids=64 cpus=8\ntasks 1\nphase\nthread\n")
    script.writelines(f"mkdir /tenant{tenant}\n" for tenant in range(63))
    for at in range(count):
        text = ";".join(f"{domain}={3 << (at + domain) % 30:x}" for domain in range(8))
        script.write(f"write /tenant{at % 63}/schemata L3:{text}\n")


def masks_before_a_read(script, count):
    """The same before a read: the tree is played once more up to it, and no group is ever exclusive."""
    masks_among_many(script, count)
    script.write("read /mode\n")


def one_tenant(script, sets):
    """An exclusive group with one of two ways, after a flush."""
    script.write(f"machine sets={sets} ways=2\ntasks 1\nphase\nthread\nwrite /schemata L3:0=2\nmkdir /tenant\n")
    script.write("write /tenant/schemata L3:0=1\nwrite /tenant/mode exclusive\nwrite /tenant/tasks 1\nflush\n")


def win_scatter(script, count):
    """One window of a group that goes over lines far from one another."""
    one_tenant(script, 1024)
    script.write(f"sweep 1 0 0 {count} {FAR}\n")


def win_scatter_1set(script, count):
    """The same in a cache of one set."""
    one_tenant(script, 1)
    script.write(f"sweep 1 0 0 {count} {FAR}\n")


def win_31_scatter(script, count):
    """A window of each of 31 groups, over lines far from one another."""
    tenants(script, "machine sets=1024")
    each = count // TENANTS
    script.writelines(f"sweep {at + 1} 0 {at << 42} {each} {FAR}\n" for at in range(TENANTS))


def windows_of_many(script, count):
    """A window of each of 31 exclusive groups after each flush, with an access of one of them."""
    tenants(script, "machine sets=1024")
    script.writelines(f"flush\naccess {at % TENANTS + 1} 0 {64 * (at % 1024)}\n" for at in range(count))


def win_many(script, count):
    """The same with an access of each of them."""
    tenants(script, "machine sets=64")
    uses = "".join(f"access {tenant + 1} 0 {64 * tenant}\n" for tenant in range(TENANTS))
    script.write(("flush\n" + uses) * count)


def windows(name, count, write, words=("step", "--windows"), **more):
    return Row(name, "resctrl_sim", list(words), count, write, **more)


ALL = ("step", "--windows", "--json", "--journal")
HEAD = 5_000
EXCLUSIVE = 20_000

ROWS = (
    windows("toggle_full", 1_980_000, toggle_full),
    windows("win_toggle8", 440_000, win_toggle8),
    windows("win_toggle8_flush", 440_000, win_toggle8_flush),
    windows("win_modes", 4 * ((MOST_WEIGHT - HEAD) // 10), win_modes),
    windows("reads_of_mode", MOST_WEIGHT - EXCLUSIVE, reads_of_mode),
    windows("masks_among_many", MOST_WEIGHT // 10, masks_among_many),
    windows("masks_before_a_read", MOST_WEIGHT // 10 - 1, masks_before_a_read),
    windows("window_of_many", MOST_WEIGHT - EXCLUSIVE, window_of_many),
    windows("win_scatter", MOST_WEIGHT - EXCLUSIVE, win_scatter),
    windows("win_scatter_1set", MOST_WEIGHT - EXCLUSIVE, win_scatter_1set),
    windows("win_31_scatter", MOST_WEIGHT - EXCLUSIVE, win_31_scatter),
    windows("windows_of_many", (MOST_WEIGHT - EXCLUSIVE) // 3, windows_of_many),
    windows("long_journal_win", MOST_WEIGHT - EXCLUSIVE, window_of_many, ALL),
    windows("win_many_json", 121_000, win_many, ALL[:3]),
    windows("win_many_all", 121_000, win_many, ALL),
)
