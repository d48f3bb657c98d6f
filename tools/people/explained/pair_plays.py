"""What is likely a mistake in a valid script of `resctrl_cdp` or `resctrl_l2`, by its report."""
import re

from .kinds import CDP
from .plays import MOST_REFUSALS
from .refusals import hint_of
from .remarks import Remark

COMMAND = re.compile(r"(\d+) (.*): (ok|[A-Z]+ .*)")
RESOURCES = {True: "the resources are L3DATA and L3CODE, as in L3CODE:0=f", False: "the resources are L2 and L3, as in L2:0=f"}


def commands_of(report):
    """The number, the words and the answer of each command of a report."""
    return [(int(found[1]), found[2], found[3]) for line in report.splitlines() if (found := COMMAND.fullmatch(line))]


def of_pair_report(script, report):
    """All remarks that need the report."""
    commands = commands_of(report)
    made = {words.split(" ")[1] for _, words, answer in commands if words.startswith("mkdir ") and answer == "ok"}
    refused = [command for command in commands if command[2] != "ok"]
    found = []
    for number, words, answer in refused[:MOST_REFUSALS]:
        hint = hint_of(script.machine, words, answer, made)
        hint = RESOURCES[script.kind == CDP] if answer == "EINVAL unknown resource name" else hint
        hint = hint if answer != "EINVAL unknown domain" else "domains are numbered from 0; the machine line says how many there are"
        found.append(Remark(script.commands[number], "", f"refused: {answer}", hint))
    if len(refused) > MOST_REFUSALS:
        found.append(Remark(0, "", f"{len(refused)} commands are refused in all; the first {MOST_REFUSALS} of them are told"))
    exclusive = [number for number, words, answer in commands if re.fullmatch(r"write \S*/mode[ \t]+exclusive[ \t]*", words) and answer == "ok"]
    if exclusive and script.uses and not re.search("^window ", report, re.MULTILINE):
        because = "a group is exclusive, but no use is in a window: lines of before may still stand in its ways"
        found.append(Remark(script.commands[exclusive[0]], "", because, "a flush after it, while the group stays exclusive, begins one"))
    return found
