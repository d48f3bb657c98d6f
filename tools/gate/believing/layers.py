"""The layers of definitions, in the order in which the page lists them."""
from dataclasses import dataclass

from believing.marks import is_marked
from believing.sources import Missing
from promised.calls import public_calls


@dataclass(frozen=True)
class Layer:
    """A list of definitions: its name for `--text`, its title, what is said of it, and the roots that it stands on.

    A root is `CRATE: CALL ..`, or `CRATE` for all public calls of a crate, or `CRATE/specs/FILE: DEFINITION ..`, or a file without
    names for all its definitions that have no mark. What stands in an earlier layer is not listed again. `beside` has roots of an
    earlier layer that one reads with it. `is_reached` says that the definitions of the layer have no mark.
    """

    name: str
    title: str
    text: str
    roots: tuple
    beside: tuple = ()
    is_reached: bool = True


def starts(sources, roots):
    """The parts that these roots stand for."""
    for root in roots:
        place, _, names = root.partition(": ")
        crate, _, file = place.partition("/specs/")
        if file:
            yield from definitions(sources, crate, file, names.split())
        else:
            calls = names.split() or [call.path().split("::", 1)[1] for call in public_calls(crate) if call.clauses]
            yield from [part for call in dict.fromkeys(calls) for part in sources.call(crate, call)]


def definitions(sources, crate, file, names):
    """The definitions of a file that have these names, or that have no mark where no name is given."""
    parts = {part.name: part for part in sources.specs(crate, file)}
    for name in names:
        if name not in parts:
            raise Missing(f"crates/{crate}/specs/{file}.antt has no {name}")
    return [parts[name] for name in names] or [part for part in parts.values() if not is_marked(part)]


RUN = "run_law/specs/Runs: IsRun"
SIMULATOR = (
    Layer(
        "run", "A run",
        """When journals are a run of a script: one legal history of the tree, one of each slice, every entry true to its op, and each
        op once and in its thread's order (`IsRun`). The rules of every command and those of a cache are in it.""",
        (RUN,),
    ),
    Layer(
        "isolation", "Isolation",
        """That every window of a run isolates its group, that locked regions hold, and where windows begin. A report of `resctrl_sim` and
        a `yes` of `resctrl_check` promise this and the layer above of their journals.""",
        ("run_windows/specs/Isolation",), (RUN,),
    ),
    Layer(
        "play", "The play by order lists",
        """What `step`, `gen`, `export step` and `divide` play: the machine of steps, and the play of a script by its order lists
        (`IsPlay`). `run` and `export run` promise the play by some order lists (`IsPlayBy`), and `check` nothing of it.""",
        ("step_world/specs/Play: IsPlay IsPlayBy",),
    ),
    Layer(
        "script", "The text of a script", "Which bytes are which script, and the line that is written of all others.",
        ("script_text/specs/Reading: script_of", "top_parts/specs/Meaning: meaning refusal_line"),
    ),
    Layer(
        "reports", "The reports", "The bytes of a report, in lines and in JSON, with the texts of files and the list of windows.",
        ("resctrl_top/specs/Outputs: IsOutput",),
    ),
    Layer("gen", "The traces of `gen`", "The text of the script that `gen N` plays.", ("trace_gen/specs/Trace: trace_text",)),
    Layer(
        "ends", "The simulator's calls",
        """The words of a command line, the statuses of `top`, and the exit status of `run_program`, by which `main` calls it. The
        headline is a clause of `top`, so "in all" is what the headline stands on.""",
        ("resctrl_top: top run_program", "top_parts: words_of"),
    ),
)
PROGRAMS = (
    Layer(
        "planner", "The planner", "What `resctrl_plan` writes: `top_plan`, and `run_plan`, by which `main` calls it.",
        ("plan_top: top_plan run_plan",),
    ),
    Layer(
        "checker", "The checker",
        "What `resctrl_check` exports, and what a check answers: `check_top`, and `run_check`, by which `main` calls it.",
        ("check_top: check_top run_check",),
    ),
    Layer(
        "orders", "Orders and reports of journals", "What `resctrl_replay` writes: `top_replay`, and `run_replayer`, by which `main` calls it.",
        ("replay_top: top_replay run_replayer",),
    ),
    Layer(
        "cdp", "Code and data", "What `resctrl_cdp` reports: `top_cdp`, and `run_cdp`, by which `main` calls it.",
        ("pair_top: top_cdp run_cdp",),
    ),
    Layer(
        "levels", "Two levels", "What `resctrl_l2` reports: `top_l2`, and `run_l2`, by which `main` calls it.",
        ("pair_top: top_l2 run_l2",),
    ),
)
LAWS = (
    Layer(
        "policies", "Replacement policies", "Which policies isolate ([POLICIES](POLICIES.md)).",
        (
            "policy_law: policies_isolate victims_decide known_policies_isolate neighbours_are_heard known_policies_keep_masks",
            "policy_law: slices_isolate sets_are_lru private_caches_are_lru",
        ),
    ),
)
BULLETS = (
    Layer(
        "commands", "Commands: the tree", "The tree as code, `tree_core::Tree`, and the laws of its rules (`tree_law::theorems`).",
        ("tree_core", "tree_law"), is_reached=False,
    ),
    Layer(
        "caches", "Reports: a slice of a cache", "A slice as code, `cache_core::Cache`: which lists of entries it stands for.",
        ("cache_core",), is_reached=False,
    ),
    Layer(
        "steps", "Reports: the steps of a play", "The world of threads, `step_world::World`, and the laws of every schedule.",
        ("step_world",), is_reached=False,
    ),
    Layer(
        "shared", "Threads: shared journals", "Journals that threads share, `seen_journal::Journal` and `Pass`.",
        ("seen_journal",), is_reached=False,
    ),
    Layer(
        "order", "Threads: one order of all steps",
        "When journals have one order of all steps, and a state in parts that threads share (`schedule_law`, `shared_parts`).",
        ("schedule_law", "shared_parts"), is_reached=False,
    ),
    Layer(
        "threads", "Threads: a run",
        """Running threads, `live_run::Live`, `Logs` and `Passes`, and the laws of what locks and passes keep
        (`live_law::theorems`).""",
        ("live_run", "live_law"), is_reached=False,
    ),
    Layer(
        "windows", "Isolation: the windows of every run",
        """That every window of every run isolates its group, that each flush and each lock begins one, and that regions hold
        (`run_windows::theorems`).""",
        ("run_windows: windows_are_isolated windows_are_one regions_hold epochs_are_sound",), is_reached=False,
    ),
    Layer(
        "worlds", "Isolation: one slice, and two worlds",
        "The law of one slice (`private_lru::theorems`), and what two worlds agree in (`run_windows::theorems::worlds_agree`).",
        ("run_windows: worlds_agree", "private_lru"), is_reached=False,
    ),
    Layer(
        "written", "The checker: what can be written",
        "That the journals of every run have a text (`check_parts::written_runs`), so that what is exported reads back.",
        ("check_parts: runs_are_writable",), is_reached=False,
    ),
)
LAYERS = SIMULATOR + PROGRAMS + LAWS + BULLETS


class Contents:
    """What is in each layer: its own parts, and all that one reads for it."""

    def __init__(self, sources):
        self.own, self.all, self.library, self.reached = {}, {}, set(), set()
        listed = set()
        for layer in LAYERS:
            parts, library = sources.closure(list(starts(sources, layer.roots)))
            beside, _ = sources.closure(list(starts(sources, layer.beside)))
            self.own[layer] = [part for part in parts if part not in listed]
            self.all[layer] = list(dict.fromkeys(parts + beside))
            listed |= set(parts)
            if layer.is_reached:
                self.library |= library
                self.reached |= set(parts)
