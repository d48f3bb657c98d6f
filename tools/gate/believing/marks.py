"""The mark of definitions that the top calls do not reach."""
from believing.parts import TOP

FILE_MARK = "-- (For functions and proofs: no promise of the program stands on it.)"
MARK = "(For proofs.)"
# Definitions that the top calls have come to reach, and that still have a mark in their files. A comment that changes has everything above
# its crate proved anew, so the marks go when the crates change.
STALE = {
    "path_names": "owner_ids holder_ids dir_ids path_ids AreKnown component_ids IsShortName AreShort",
    "script_ops": "op_ids op_component_ids IsShort AreAllShort IsNamed AreNamed Fits AreFit AreFew IsLawful",
    "pair_law": "counts_use count_uses",
    "way_curve": "BeginsWith IsOpen",
}


def is_marked(part):
    """Whether a definition, or the head of its file, says that the top calls do not reach it."""
    lines = part.file.text.splitlines()
    has_mark = FILE_MARK in lines or lines[0].startswith(f"-- {MARK}") or part.comment.startswith(MARK)
    return not is_stale(part) and has_mark


def is_stale(part):
    """Whether a definition's mark is to go."""
    return part.name in STALE.get(part.file.crate(), "").split()


def shown_comment(part):
    """The comment of a definition, without a mark that is to go."""
    return part.comment.removeprefix(MARK).lstrip() if is_stale(part) else part.comment


def wrong_marks(sources, reached):
    """The definitions that have no mark and are not reached, and those that have one and are."""
    for file in sources.spec_files():
        for name, part in file.parts.items():
            if part.in_block and part not in reached:
                continue
            if is_marked(part) == (part in reached):
                what = "reached, and marked" if part in reached else "not reached, and has no mark"
                yield f"{file.path.relative_to(TOP)}: {name} is {what}"
