"""Commands that are tried in every state: for each what it does, and the lines that are repeated."""
from storms.limits import FIRST_TASK, MOST_TEXT, long_name

FILES = ("schemata", "size", "mode", "tasks", "cpus", "cpus_list", "mon_data/mon_L3_00/llc_occupancy")
COUNTED = ("tasks", "cpus", "cpus_list", "mon_data/mon_L3_00/llc_occupancy")
INFO = (
    "last_cmd_status",
    "L3/num_closids",
    "L3/min_cbm_bits",
    "L3/cbm_mask",
    "L3/shareable_bits",
    "L3/bit_usage",
    "L3/sparse_masks",
    "L3_MON/num_rmids",
    "L3_MON/mon_features",
    "L3_MON/max_threshold_occupancy",
)
MODES = ("shareable", "exclusive", "pseudo-locksetup", "pseudo-locked", "none")


def under(group, name):
    """A path below a group's directory; the default group's is `/`."""
    return f"{group.rstrip('/')}/{name}"


def full(part):
    """As many of these as one text may hold."""
    return part * (MOST_TEXT // len(part.replace("\\n", "n")))


def reads(state):
    for file in FILES:
        yield f"read {file}", [f"read {under(state.group, file)}"]
        yield f"read default {file}", [f"read /{file}"]
    for file in COUNTED:
        yield f"read monitor {file}", [f"read {under(state.monitor, file)}"]
    for file in INFO:
        yield f"read info {file}", [f"read /info/{file}"]
    yield "read none", ["read /none/tasks"]
    yield "read directory", ["read /mon_groups"]
    for path in ("/", "/mon_groups", "/info", "/mon_data", "/none", state.group, under(state.group, "mon_groups"), state.monitor):
        yield f"list {path[-30:]}", [f"list {path}"]


def makings(state):
    group, monitor = state.group, state.monitor
    yield "mkdir there", [f"mkdir {group}"]
    yield "mkdir new", ["mkdir /x"]
    yield "mkdir monitor there", [f"mkdir {monitor}"]
    yield "mkdir monitor new", [f"mkdir {under(group, 'mon_groups/x')}"]
    yield "mkdir no parent", ["mkdir /none/mon_groups/x"]
    yield "mkdir no place", [f"mkdir {under(group, 'x')}"]
    yield "mkdir long path", ["mkdir " + f"/{long_name(1)}" * 8]
    yield "mkdir rmdir", ["mkdir /x", "rmdir /x"]
    yield "mkdir rmdir monitor", [f"mkdir {under(group, 'mon_groups/x')}", f"rmdir {under(group, 'mon_groups/x')}"]
    yield "rmdir mkdir group", [f"rmdir {group}", f"mkdir {group}"]
    yield "rmdir mkdir monitor", [f"rmdir {monitor}", f"mkdir {monitor}"]
    yield "rmdir none", ["rmdir /none"]
    yield "rmdir file", ["rmdir /tasks"]


def schemata(state):
    path = under(state.group, "schemata")
    yield "schemata same", [f"write {path} L3:0={state.mask:x}"]
    yield "schemata turns", [f"write {path} L3:0={state.mask:x}", f"write {path} L3:0={state.mask << 1 & 0xffffffff or 1:x}"]
    yield "schemata all", [f"write {path} L3:" + ";".join(f"{domain}={state.mask:x}" for domain in range(8))]
    yield "schemata all ways", [f"write {path} L3:0=ffffffff", f"write {path} L3:0=ff"]
    yield "schemata none", [f"write {path} L3:0=0"]
    yield "schemata empty", [f"write {path}"]
    yield "schemata lines", [f"write {path} " + full(f"L3:0={state.mask:x}\\n")[:-2]]
    yield "schemata refused last", [f"write {path} " + full(f"L3:0={state.mask:x}\\n")]
    yield "schemata blanks", [f"write {path} L3:" + " " * 4_000 + f"0={state.mask:x}"]
    yield "schemata zeros", [f"write {path} L3:0=" + "0" * 4_000 + f"{state.mask:x}"]
    yield "schemata default", [f"write /schemata L3:0={state.mask:x}"]


def modes(state):
    path = under(state.group, "mode")
    for mode in MODES:
        yield f"mode {mode}", [f"write {path} {mode}"]
    yield "mode turns", [f"write {path} exclusive", f"write {path} shareable"]
    yield "mode setup turns", [f"write {path} pseudo-locksetup", f"write {path} shareable"]
    yield "mode blanks", [f"write {path} " + " " * 4_000 + "shareable"]
    yield "mode default", ["write /mode pseudo-locksetup"]


def members(state):
    for name, group in ("group", state.group), ("default", "/"), ("monitor", state.monitor):
        tasks, cpus, cpu_list = (under(group, file) for file in ("tasks", "cpus", "cpus_list"))
        yield f"tasks one {name}", [f"write {tasks} {state.task}"]
        yield f"tasks same {name}", [f"write {tasks} " + full(f"{state.task},")[:-1]]
        yield f"tasks none {name}", [f"write {tasks} 7777777"]
        yield f"cpus {name}", [f"write {cpus} 1"]
        yield f"cpus zero {name}", [f"write {cpus} 0"]
        yield f"cpus list {name}", [f"write {cpu_list} " + full("0,")[:-1]]
        yield f"cpus refused {name}", [f"write {cpus} ffffffff,ffffffff,ffffffff"]
    in_turn = ",".join(str(FIRST_TASK + 11 * at) for at in range(370))
    yield "tasks many group", [f"write {under(state.group, 'tasks')} {in_turn}", f"write /tasks {in_turn}"]
    yield "tasks turns", [f"write {under(state.group, 'tasks')} {state.task}", f"write /tasks {state.task}"]
    yield "cpus turns", [f"write {under(state.group, 'cpus')} 1", f"write {under(state.group, 'cpus')} 0"]
    yield "threshold", ["write /info/L3_MON/max_threshold_occupancy 0"]
    yield "threshold zeros", ["write /info/L3_MON/max_threshold_occupancy " + "0" * 4_000]
    yield "write read-only", ["write /size 0"]


def uses(state):
    task = state.task
    yield "access", [f"access {task} 0 0"]
    yield "access turns", [f"access {task} 0 0", f"access {task - 1 or 2} 0 64"]
    yield "sweep", [f"sweep {task} 0 0 64000 64"]
    yield "sweep far", [f"sweep {task} 0 0 64000 {64 * 40_503}"]
    yield "flush", ["flush"]
    yield "flush one", ["flush 0"]
    yield "clflush", ["clflush 0"]
    yield "access clflush", [f"access {task} 0 0", "clflush 0"]
    yield "access flush", [f"access {task} 0 0", "flush"]
    yield "access schemata", [f"access {task} 0 0", f"write {under(state.group, 'schemata')} L3:0={state.mask:x}"]
    yield "access mode", [f"access {task} 0 0", f"write {under(state.group, 'mode')} shareable"]
    yield "tick", ["tick"]
    region = state.region or "/none"
    yield "touch", [f"touch {region} 0 {task} 63" if state.region else f"touch {region} 0 {task} 0"]
    yield "touch past", [f"touch {region} 0xffffffffffff {task} 0"]
    yield "clflush region", [f"clflush {region} 0"]
    yield "lock", [f"rmdir {region}", f"mkdir {region}", f"write {region}/mode pseudo-locksetup", f"write {region}/schemata L3:7=fffffff0"]


def commands(state):
    """What a command is called, and its lines, for every command in this state."""
    for kind in (reads, makings, schemata, modes, members, uses):
        yield from kind(state)
