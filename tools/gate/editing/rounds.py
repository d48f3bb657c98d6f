"""A crate's edits in rounds: many in one check, and alone those of which no such check says anything."""
import re
import shutil

from editing.crates import BadEdit
from editing.results import PROVED, REFUSED, UNTRIED

# What the prover says of a function of which a goal of its own is not proved, whatever it calls.
OWN = re.compile(r"^not proved$|`search` did not prove")

# How often an edit is tried together with others before it is tried alone.
TOGETHER = 2


def try_all(clone, crate, results, stop):
    """Tries the edits of a crate that are still open, and returns a line on it."""
    left = [(edit, 0) for edit in results.open_edits(crate)]
    kept, checks = clone.kept_folder(crate), 0
    while left and not stop.is_set():
        chosen, left = next_round(crate, left)
        checks += 1
        if len(chosen) == 1:
            edit = chosen[0][0]
            results.keep(crate, edit, *try_alone(clone, crate, edit, kept))
        else:
            told = try_together(clone, crate, [edit for edit, _ in chosen], kept, results)
            left += [(edit, times + 1) for edit, times in chosen if edit not in told]
    shutil.rmtree(kept, ignore_errors=True)
    open_edits = len(results.open_edits(crate))
    return f"{crate.name}: {len(crate.edits()) - open_edits} edits refused, {open_edits} open, {checks} checks"


def next_round(crate, left):
    """The edits of the next check, each in a function of its own, and the others. Each edit comes with how often it was tried."""
    chosen, later, functions = [], [], set()
    for edit, times in left:
        function = edit.function(crate.folder)
        if function and function not in functions and times < TOGETHER:
            functions.add(function)
            chosen.append((edit, times))
        else:
            later.append((edit, times))
    return (chosen, later) if chosen else (later[:1], later[1:])


def try_together(clone, crate, edits, kept, results):
    """Keeps which of these edits are refused by one check, and returns them."""
    try:
        checked = clone.check(crate, edits, kept)
    except BadEdit:
        return []
    refusals = {edit: refusal(checked, crate, edit) for edit in edits}
    told = [edit for edit, why in refusals.items() if why]
    for edit in told:
        results.keep(crate, edit, REFUSED, refusals[edit])
    return told


def refusal(checked, crate, edit):
    """Why the edited function is not proved by its own, or None if it is, or if only what it calls is not."""
    file, name = edit.function(crate.folder)
    module = [crate.name, *file.removeprefix("src/").removesuffix(".rt").split("/")]
    prefix = "::".join(module[:-1] if module[-1] == "lib" else module) + "::"
    same = [path for path in checked.functions if path.startswith(prefix) and path.split("::")[-1] == name]
    is_told = len(same) == 1 and OWN.search(checked.functions[same[0]])
    return f"{same[0]}: {checked.functions[same[0]][:120]}" if is_told else None


def try_alone(clone, crate, edit, kept):
    """What an edit comes to in a check of its own, and why."""
    try:
        checked = clone.check(crate, [edit], kept)
        if checked.is_proved is not False:
            checked = clone.check(crate, [edit])
    except BadEdit as why:
        return UNTRIED, str(why)
    if checked.is_proved is None:
        return UNTRIED, checked.first_error()
    return (PROVED, "the crate is proved with this edit") if checked.is_proved else (REFUSED, checked.first_error())
