"""What is likely a mistake in a valid script, by its report."""
from bisect import bisect_right
from collections import Counter
from itertools import combinations
import re

from .refusals import hint_of
from .remarks import Remark

MOST_REFUSALS = 5
ACCESS = re.compile(r"\d+ (\d+)\.(\d+) e\d+ access group (\d+) .* line (\d+) (?:hit|fill) ")

def line_of(script, thread, op):
    """The line of an op."""
    ops = script.threads()[thread].ops
    firsts = list(ops)
    return ops[firsts[bisect_right(firsts, op) - 1]]


def of_refusals(script, report):
    """Commands that were refused."""
    refused = [command for command in report["commands"] if not command["result"].startswith("ok")]
    made = {path for _, path in accepted(report, "mkdir (/[^/]+)")}
    for command in refused[:MOST_REFUSALS]:
        at = line_of(script, command["thread"], command["op"])
        hint = hint_of(script.machine, command["words"], command["result"], made)
        yield Remark(at, "", f"refused: {command['result']}", hint)
    if len(refused) > MOST_REFUSALS:
        yield Remark(0, "", f"{len(refused)} commands are refused in all; the first {MOST_REFUSALS} of them are told")


def accepted(report, pattern):
    """The commands of this form that were accepted, each with what the form names."""
    for command in report["commands"]:
        found = re.fullmatch(pattern, command["words"])
        if found and command["result"].startswith("ok"):
            yield command, found[1]


def of_windows(script, report):
    """Exclusive groups without a window: nothing is promised of their accesses."""
    with_window = {window["gid"] for window in report["windows"]}
    paths = {group["path"]: group for group in report["groups"]}
    for command, path in accepted(report, "write (.*)/mode [ \t]*exclusive[ \t]*"):
        group = paths.get(path or "/")
        if group and group["accesses"] and group["gid"] not in with_window:
            at = line_of(script, command["thread"], command["op"])
            because = f"{path or '/'} is exclusive, but has no access in a window: lines of before may still stand in its ways"
            yield Remark(at, "", because, "a flush after it, while the group stays exclusive, begins one")


def users_of(journal, domains):
    """Of each line in these domains the groups that use it, each with the thread and op of its first use."""
    users = {}
    for part in journal:
        for entry in part["entries"] if part["domain"] in domains else ():
            if found := ACCESS.match(entry):
                thread, op, gid, line = map(int, found.groups())
                users.setdefault(line, {}).setdefault(gid, (thread, op))
    return users


def of_shared_lines(script, report):
    """Tenants whose lines others use too: nothing is promised from then on."""
    poor = [window for window in report["windows"] if window["covered"] < window["accesses"]]
    users = users_of(report["journal"], {window["domain"] for window in poor}) if poor else {}
    for gid in sorted({window["gid"] for window in poor}):
        path = next(group["path"] for group in report["groups"] if group["gid"] == gid)
        mine = [window for window in poor if window["gid"] == gid]
        count = sum(window["accesses"] - window["covered"] for window in mine)
        shared = {line: by for line, by in users.items() if gid in by and len(by) > 1}
        because = f"{path} shares lines with others: {count} of its accesses are not covered, and nothing is promised of these"
        if not shared:
            yield Remark(0, "", because)
            continue
        line, by = min(shared.items())
        at, other = (line_of(script, *by[one]) for one in (gid, min(set(by) - {gid})))
        yield Remark(at, "", because, f"address {line * 64:#x}, for one, is used in line {other} too")


def masks_written(report, path):
    """The masks that a group was given last, by their domains."""
    masks = {}
    for _, text in accepted(report, f"write {re.escape(path)}/schemata (.*)"):
        masks.update({int(domain): int(mask, 16) for domain, mask in re.findall(r"([0-9]+)[ \t]*=[ \t]*(?:0[xX])?([0-9a-fA-F]+)", text)})
    return masks


def of_groups_apart(script, report):
    """Two groups with ways of their own that nothing but their masks keeps apart: nothing is promised of their accesses."""
    ever = {path for _, path in accepted(report, "write (/[^/]+)/mode [ \t]*(?:exclusive|pseudo-locksetup)[ \t]*")}
    busy = [group["path"] for group in report["groups"] if group["accesses"] and group["path"] not in ever and group["path"] != "/"]
    masks = {path: masks_written(report, path) for path in busy}
    for one, other in combinations(busy, 2):
        both = masks[one].keys() & masks[other].keys()
        if both and not any(masks[one][domain] & masks[other][domain] for domain in both):
            command, _ = list(accepted(report, f"write ({re.escape(other)})/schemata .*"))[-1]
            at = line_of(script, command["thread"], command["op"])
            because = f"{one} and {other} have no way in common, but neither is exclusive: there is no window, and nothing is promised of them"
            yield Remark(at, "", because, f"write {one}/mode exclusive once no other mask has its ways, and then flush")
            return


def of_idle_groups(script, report):
    """Control groups that were made and get no access."""
    counts = Counter({group["path"]: group["accesses"] for group in report["groups"]})
    written = {path for _, path in accepted(report, r"write (.*)/(?:schemata|mode) .*")}
    locked = {path for _, path in accepted(report, "write (.*)/mode [ \t]*pseudo-locksetup[ \t]*")}
    for command, path in accepted(report, "mkdir (/[^/]+)"):
        if path in written - locked and not counts[path] and report["total"]["accesses"]:
            at = line_of(script, command["thread"], command["op"])
            hint = f"a write of {path}/tasks gives it tasks, and one of {path}/cpus CPUs"
            yield Remark(at, "", f"{path} has a mask or a mode of its own, but no access of the script is its", hint)


def of_report(script, report):
    """All remarks that need the report in JSON, with its journal and its windows."""
    finders = (of_refusals, of_windows, of_shared_lines, of_idle_groups, of_groups_apart)
    return [remark for find in finders for remark in find(script, report)]
