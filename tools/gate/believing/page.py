"""The page docs/BELIEVE.md."""
import re
from textwrap import fill

from believing.layers import BULLETS, LAWS, LAYERS, PROGRAMS, SIMULATOR

WIDTH = 120
INTRODUCTION = """# What a reader has to believe

For auditors: the definitions on which contracts stand. A proof shows that the programs meet these contracts. That the contracts say
what one wants is for people to judge, and these are the words to judge by ([READING](READING.md) explains how to read them).
`tools/gate/believe` prints this page, and the gate fails if it differs.

The definitions stand in layers, so that nobody has to read them all: choose the layer whose claim you want to judge. Each layer lists
what the layers before it do not have, nearest to its claim first. The table says how much that is, and under "in all" how much one
reads for this layer alone, with what it needs of earlier ones. "Types" are types and constants of the programs, and the calls whose
contracts a layer begins with.

To judge what isolation means of given journals, your own or the simulator's, read the first two layers: {isolation} definitions,
{isolation_lines} lines. The headline of [README](../README.md#what-is-proved) stands on {headline} definitions, {headline_lines} lines.
`tools/gate/believe --text NAME` prints all that one reads for a layer, whole and in reading order; NAME stands in the first column.
"""
AFTER_THE_TABLE = """Besides these one has to agree with the kit: its prover, its library, and {words} of that library's words.

**Marks.** A definition that no contract of the programs' top calls and of the laws of policies reaches is marked in its file: its
comment or the head of its file begins with "(For proofs.)", or that head says that no promise of the program stands on it. Both mean "not
reached from the top calls", and no more: laws and calls below the top may use it, and the lists for further bullets of the README do. If
a marked definition were wrong, a proof might fail, or a law or an inner call might promise something else, but no top call
would. `tools/gate/believe --private` lists them all.
"""
GROUPS = (
    ("The simulator", "What the contract of `top` stands on, the top call of `resctrl_sim`.", SIMULATOR),
    ("The other programs", "Each stands on many of the definitions above, and on these.", PROGRAMS),
    ("Laws of their own", "No program stands on them.", LAWS),
    (
        "Further bullets of the README",
        """What the bullets of [What is proved](../README.md#what-is-proved) say beyond the top calls: the contracts of calls and laws below
        them. The definitions here have the mark.""",
        BULLETS,
    ),
)


def prose(text):
    """Paragraphs in lines of at most WIDTH characters."""
    parts = [fill(part, WIDTH, break_on_hyphens=False) for part in re.sub(r"\n +", "\n", text).strip().split("\n\n")]
    return "".join(part + "\n\n" for part in parts)


def kinds(parts):
    """The definitions, and the items of the programs."""
    return [part for part in parts if part.is_definition()], [part for part in parts if not part.is_definition()]


def lines_of(parts):
    return sum(part.lines() for part in parts)


def by_file(parts):
    files = {}
    for part in parts:
        files.setdefault(part.file, []).append(part)
    return files


def size(parts):
    """The number of definitions, their lines, and the number of types, as cells of a table."""
    specs, items = kinds(parts)
    return f"{len(specs):,} | {lines_of(specs):,} | {len(items):,}"


def summary(contents):
    """The table of all layers."""
    yield "| `--text` | layer | definitions | lines | types | in all | lines | types |\n|---|---|---|---|---|---|---|---|\n"
    for layer in LAYERS:
        yield f"| `{layer.name}` | {layer.title} | {size(contents.own[layer])} | {size(contents.all[layer])} |\n"
    yield "\n"


def table(parts):
    """The files of these parts, those of definitions first."""
    yield "| file | what it says | lines | reached |\n|---|---|---|---|\n"
    specs, items = kinds(parts)
    for file, there in by_file(specs + items).items():
        names = ", ".join(f"`{part.name}`" for part in there)
        yield f"| {file.shown()} | {file.head()} | {lines_of(there)} | {names} |\n"
    yield "\n"


def section(layer, contents):
    own = contents.own[layer]
    specs, items = kinds(own)
    count = f"{len(specs):,} definitions in {len(by_file(specs))} files, {lines_of(specs):,} lines"
    types = f"; {len(items)} types, {lines_of(items)} lines" if items else ""
    yield f"### {layer.title}\n\n"
    yield prose(f"{layer.text} Listed here: {count}{types}.")
    yield from table(own)


def page(contents):
    """The text of the page, piece by piece."""
    named = {layer.name: kinds(contents.all[layer])[0] for layer in LAYERS}
    yield prose(INTRODUCTION.format(
        isolation=len(named["isolation"]),
        isolation_lines=f"{lines_of(named['isolation']):,}",
        headline=len(named["ends"]),
        headline_lines=f"{lines_of(named['ends']):,}",
    ))
    yield from summary(contents)
    yield prose(AFTER_THE_TABLE.format(words=len(contents.library)))
    for title, text, layers in GROUPS:
        yield f"## {title}\n\n" + (prose(text) if text else "")
        for layer in layers:
            yield from section(layer, contents)
