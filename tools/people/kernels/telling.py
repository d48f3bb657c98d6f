"""What is printed of comparisons."""
from collections import Counter
import json

FOLLOWS = "follows from what is told above"
UNKNOWN = "no rule is known for this: please report it"


def tell(comparison, version, *, all_commands=False):
    """The lines of one comparison."""
    script, found = comparison.script, comparison.in_order
    yield f"{script.name}: {comparison.compared} commands beside Linux {version}, {count(len(found), 'difference')}"
    at_line = {one.difference.command.line: one for one in found}
    if all_commands:
        shown = {command.line: (command, answer) for command, answer in comparison.pairs}
        lines = sorted(shown.keys() | at_line.keys())
    else:
        shown, lines = {}, sorted(at_line)
    for line in lines:
        yield from tell_difference(at_line[line]) if line in at_line else tell_same(*shown[line])
    yield from (f"  {complaint}" for complaint in comparison.complaints)


def tell_difference(found):
    difference = found.difference
    yield f"  {difference.command.line + 1}: {difference.command.words}"
    yield f"    simulator: {difference.simulator}"
    yield f"    kernel:    {difference.kernel}"
    yield f"    {rule_words(found)}"


def rule_words(found):
    if found.rule:
        return f"{found.rule.name}: {found.rule.link}"
    return FOLLOWS if found.follows else UNKNOWN


def tell_same(command, answer):
    yield f"  {command.line + 1}: {command.words}: {answer.shown}"
    yield from (f"  |{line}" for line in (command.text or ()))


def as_json(comparison, version):
    """One JSON object a difference."""
    for found in comparison.in_order:
        difference = found.difference
        yield json.dumps({
            "script": comparison.script.name, "line": difference.command.line + 1, "command": difference.command.words, "linux": version,
            "kind": difference.kind.name.lower(), "simulator": difference.simulator, "kernel": difference.kernel,
            "rule": found.rule.name if found.rule else None, "link": found.rule.link if found.rule else None, "follows": found.follows,
        })


def count(number, word):
    return f"{number} {word}{'s' * (number != 1)}"


def table_of(comparisons):
    """How often each rule was met, and in how many commands."""
    counts = Counter(one.rule.name for comparison in comparisons for one in comparison.in_order if one.rule)
    rows = [f"{number:7} {rule}\n" for rule, number in sorted(counts.items(), key=lambda row: (-row[1], row[0]))]
    return f"{sum(comparison.compared for comparison in comparisons):7} commands\n" + "".join(rows)
