"""The tables of rules in docs/RESCTRL.md."""
from pathlib import Path

from .rules import RULES, Outcome

PAGE = Path(__file__).resolve().parents[3] / "docs" / "RESCTRL.md"
BEGIN = "<!-- The rules of tools/bikhnoun kernel, as `tools/bikhnoun kernel --page` writes them. -->\n"
END = "<!-- The end of the rules. -->\n"
HEAD = ("| rule | file | what is written or read | the simulator | a kernel | Linux | `--strict` |", "|---|---|---|---|---|---|---|")


def tables():
    """The lines of all tables, each after its heading. What misleads most is first; in a table the files are in order."""
    lines = []
    for outcome in Outcome:
        rules = sorted((rule for rule in RULES if rule.outcome is outcome), key=lambda rule: rule.file.strip("`"))
        lines += [f"### {outcome.value}", "", *HEAD, *map(row, rules), ""]
    return lines[:-1]


def row(rule):
    """A rule as a row. What was not seen on a running kernel says so."""
    source = f" ({rule.source})" if rule.source else ""
    name = f'<a name="{rule.anchor}"></a>{rule.name}'
    cells = (name, rule.file, rule.example, rule.simulator, rule.kernel + source, " and ".join(rule.versions), rule.strict.value)
    return f"| {' | '.join(cell.replace('|', chr(92) + '|') for cell in cells)} |"


def write():
    """Puts the tables into the page, in place of those that are there."""
    before, _, rest = PAGE.read_text().partition(BEGIN)
    _, _, after = rest.partition(END)
    PAGE.write_text(before + BEGIN + "\n" + "\n".join(tables()) + "\n\n" + END + after)
