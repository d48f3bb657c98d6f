"""The order of steps of a run, as the `order` lines of a script that `step` plays in the same way."""
from resctrl_sim.order import NoOrder, ordered

from .plays import Failed


def without_orders(script):
    """A script whose lines have no blanks at their ends, without its `order` lines."""
    lines = [line.strip(" \t\r") for line in script.split("\n")]
    return "\n".join(line for line in lines if line.split()[:1] != ["order"])


def journal_text(report):
    """The commands and the entries of a report in JSON, as its text form has them."""
    lines = [f"{one['at']} {one['thread']}.{one['op']} {one['words']}: {one['result']}" for one in report["commands"]]
    for part in report["journal"]:
        lines += [f"slice {part['domain']}.{part['slice']}", *part["entries"]]
    return "\n".join(lines)


def in_order(script, report):
    """The script with the order that a report of it tells."""
    try:
        return ordered(without_orders(script), journal_text(report))
    except NoOrder as why:
        raise Failed(f"no order gives this report: {why}") from None
