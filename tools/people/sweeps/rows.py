"""The rows of the table: what each mask did to each group."""
import re
import sys
from typing import NamedTuple

from curves.picture import Curve
from resctrl_sim import Report
from resctrl_sim.names import tool_name
from resctrl_sim.programs import SIMULATOR, ended

COLUMNS = ("ways", "mask", "overlaps", "group", "accesses", "hits", "misses", "miss rate")


class Row(NamedTuple):
    """What one mask of the swept group did to one group. Of a mask that was refused there are no counts."""
    ways: int
    mask: int
    refusal: str
    overlaps: str
    group: str
    accesses: int
    hits: int
    misses: int

    @property
    def is_overlapping(self):
        return self.overlaps not in ("-", "?")

    def text(self):
        if self.refusal:
            return f"{self.ways}\t{self.mask:x}\t{self.refusal}"
        rate = 100 * self.misses / self.accesses if self.accesses else 0.0
        counts = f"{self.accesses}\t{self.hits}\t{self.misses}\t{rate:.2f} %"
        return f"{self.ways}\t{self.mask:x}\t{self.overlaps}\t{self.group}\t{counts}"


def masks_of(text):
    """The mask of each domain in a line of a schemata file."""
    return {domain: int(mask, 16) for domain, mask in re.findall(r"(\d+)=([0-9a-f]+)", text.partition(":")[2])}


def overlaps_of(report, sweep):
    """The groups that have a way of the swept group's masks when the script has ended, or a question mark."""
    reads = [command for command in report.commands if command.thread == sweep.reading_thread]
    masks = {command.words.split()[1]: masks_of(command.text[0]) for command in reads if command.text}
    if sweep.path not in masks:
        return "?"
    own = masks.pop(sweep.path)
    met = [path for path, mask in masks.items() if any(mask.get(domain, 0) & own[domain] for domain in own)]
    return ",".join(path.removesuffix("/schemata") or "/" for path in met) or "-"


def rows_of(played, sweep, ways, mask):
    """The rows of one mask."""
    status, written = played
    if status != 0:
        sys.exit(f"{tool_name('ways')}: {written.strip() or ended(SIMULATOR, status)}")
    report = Report.of(written)
    answer = next(command for command in report.commands if command.words.startswith(f"write {sweep.path} "))
    if not answer.accepted:
        return [Row(ways, mask, answer.result, "", "", 0, 0, 0)]
    overlaps = overlaps_of(report, sweep)
    return [Row(ways, mask, "", overlaps, group.path, group.accesses, group.hits, group.misses) for group in report.groups]


def curves_of(rows):
    """The curve of each group that has accesses. A ring is around a point whose mask overlaps another group's."""
    counted = [row for row in rows if row.accesses]
    paths = dict.fromkeys(row.group for row in counted)
    return [Curve(path, [(row.ways, row.misses, row.is_overlapping) for row in counted if row.group == path]) for path in paths]
