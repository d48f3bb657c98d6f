"""The page, in plain text of 80 columns."""
from textwrap import fill

from judged.clauses import CLAUSES

WIDTH = 80
SAYS = (
    "The journals are a run of the script: one legal history of commands and one of each cache slice, each operation once and in its "
    "thread's order, and each access under the mask that its group had when it learned it. That is proved of the checker: it answers "
    "yes exactly where this holds.",
    "So what is proved of every run holds of these journals, whoever wrote them: from a flush on, while a group stays exclusive on one "
    "mask, its accesses hit exactly as in a private cache of that many ways, as long as no one else uses its lines; and a pseudo-locked "
    "region keeps its lines until one of them is flushed.",
)
SAYS_NOT = (
    "that the run happened: journals may be made up. It says what follows if they tell what happened",
    "anything of time: latency, bandwidth, ports and buffers are not in the model",
    "anything of another replacement than the one of the model, which is least recently used, set by set",
    "anything of a group without a flush while it is exclusive, of a group that is shareable, or of accesses to lines that others use too",
    "that a processor is this cache. That a fill obeys the mask of its class, from when on a rewritten mask is in force, which addresses "
    "share a set, and that nothing else fills (prefetchers, devices, other levels) is for its vendor to say, or to be measured",
    "that every list has one order with every other: each is legal by itself, and epochs and counts tie them",
)


def wrapped(text, first="  ", rest="  "):
    """A paragraph."""
    return fill(text, WIDTH, initial_indent=first, subsequent_indent=rest, break_long_words=True, break_on_hyphens=False)


def row(name, text):
    """A line with its name in front."""
    return wrapped(text, f"  {name:<15}", " " * 17)


def counted(number, what):
    """So many of something."""
    return f"{number} {what}" if number == 1 else f"{number} {what}es" if what.endswith("s") else f"{number} {what}s"


def head(text):
    """The head of a section."""
    return f"\n{text}\n"


def masks_text(machine, masks):
    """Masks of all domains, with their ways."""
    digits = (machine.ways + 3) // 4
    return "; ".join(f"domain {domain}: {mask:0{digits}x} ({counted(mask.bit_count(), 'way')})" for domain, mask in enumerate(masks))


def machine_text(machine):
    """A machine in words."""
    shared = f"other hardware uses ways {machine.shareable:x} too" if machine.shareable else "no other hardware uses the caches"
    gaps = "masks may have gaps" if machine.sparse else "masks have no gaps"
    parts = (
        f"{counted(machine.domains, 'cache')}, each of {counted(machine.sets, 'set')}, {counted(machine.ways, 'way')} and "
        f"{counted(machine.slices, 'slice')}, lines of 64 bytes",
        f"{counted(machine.classes, 'class')}, {counted(machine.rmids, 'RMID')}, {counted(machine.cpus, 'CPU')}",
        f"masks of at least {counted(machine.min, 'way')}, {gaps}", shared,
    )
    return "; ".join(parts)


def what_was_judged(name, case, hashes, refused):
    """The first section."""
    yield head("1. What was judged")
    yield row("file", name)
    for what, digest in hashes:
        yield row(what, "sha256")
        yield f"    {digest}"
    yield row("machine", machine_text(case.machine))
    entries = sum(len(entries) for _, entries in case.slices())
    yield row("operations", f"{counted(len(case.journals.tree), 'command')}{refused}; {case.ops.accesses()} accesses; {entries} entries of slices")


def windows_text(lines):
    """The windows in which the promise of isolation is about accesses, with their counts."""
    yield "  Windows with accesses, as the proved resctrl_replay report tells them:"
    for line in lines or ():
        yield wrapped(line, "    ", "      ")
    if not lines:
        yield "    none" if lines is not None else "    not told: resctrl_replay is missing"


def who_had_which_ways(case, groups, windows):
    """The second section."""
    yield head("2. Groups and masks")
    yield "  After the last command:"
    for gid, path, mode, masks in groups.at_end:
        yield wrapped(f"group {gid} {path}: {mode}; {masks_text(case.machine, masks)}", "    ", "      ")
    yield "  Exclusive, from which command to which (0: before the first), on which masks:"
    for one in groups.held:
        flushes = f"{counted(one.begun, 'window')} begun by a flush or a lock" if one.begun else "no flush came, so nothing is promised"
        yield wrapped(f"group {one.gid} {one.path}: {one.first} to {one.last}; {masks_text(case.machine, one.masks)}; {flushes}", "    ", "      ")
    if not groups.held:
        yield "    none: no group was ever exclusive, so nothing of isolation is promised"
    yield from windows_text(windows)


def what_the_answer_says(answer, place):
    """The third section, and the fourth."""
    yield head(f"3. The answer of the proved checker: {answer}")
    if answer == "yes":
        yield from (wrapped(text) for text in SAYS)
    else:
        clause = answer.removeprefix("no ")
        yield wrapped(f"The journals are no run of the script, so nothing follows from them. The first clause that is false asks that {CLAUSES[clause]}.")
        yield wrapped(f"Where, which is not proved: {place.place}: {place.because}." if place else "Where is not known.")
    yield head("4. What it does not say")
    yield from (wrapped(text + ".", "  - ", "    ") for text in SAYS_NOT)


def signed():
    """The last section."""
    yield head("5. Signed")
    for what in ("judged by", "of", "date", "signature"):
        yield f"  {what:<12}{'_' * 60}\n"


def page(name, case, hashes, groups, windows, answer, place):
    """The whole page, line by line."""
    title = "Statement on the journals of a simulated cache"
    yield f"{title}\n{'=' * len(title)}"
    note = "The answer in section 3 and the windows are those of programs which are proved; all else on this page was put together by a tool which is not."
    yield "\n" + wrapped(note, "", "")
    yield from what_was_judged(name, case, hashes, f", {groups.refused} of them refused" if groups else "")
    if groups:
        yield from who_had_which_ways(case, groups, windows)
    yield from what_the_answer_says(answer, place)
    yield from signed()
