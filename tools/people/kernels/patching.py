"""The patch of a kernel: two files of this project, and one line changed at each of a few anchors in the kernel's own.

No file command is touched. What changes is what the code believes of the processor: its L3 and its counters.
"""
from dataclasses import dataclass
from pathlib import Path
import shutil

from .versions import NotBuilt

GUEST = Path(__file__).with_name("guest")
CPU = Path("arch/x86/kernel/cpu")
RESCTRL = CPU / "resctrl"


class NoAnchor(NotBuilt):
    """A kernel's file does not have the text that the patch looks for: this version needs another patch."""


@dataclass(frozen=True)
class Anchor:
    """A text that stands just once in a file, and what takes its place."""

    file: Path
    text: str
    becomes: str


ANCHORS = (
    Anchor(RESCTRL / "Makefile", "+= core.o ", "+= simulated.o core.o "),
    Anchor(RESCTRL / "core.c", "cpuid_count(0x00000010, idx, &eax.full, &ebx", "simulated_leaf(r, &eax.full, &ebx"),
    Anchor(RESCTRL / "core.c", "\trdt_init_res_defs();\n", "\tsimulated_features();\n\trdt_init_res_defs();\n"),
    Anchor(
        RESCTRL / "internal.h",
        "#define CQM_LIMBOCHECK_INTERVAL\t1000\n",
        '#include "simulated.h"\n#define CQM_LIMBOCHECK_INTERVAL\tsimulated_limbo_ms\n',
    ),
    Anchor(RESCTRL / "monitor.c", "wrmsr(MSR_IA32_QM_EVTSEL, eventid, ", "simulated_select("),
    Anchor(RESCTRL / "monitor.c", "rdmsrl(MSR_IA32_QM_CTR, msr_val);", "simulated_read(&msr_val);"),
    Anchor(CPU / "cacheinfo.c", '#include "cpu.h"\n', '#include "cpu.h"\n#include "resctrl/simulated.h"\n'),
    Anchor(CPU / "cacheinfo.c", "= base->size;", "= simulated_cache_bytes(this_leaf->level, base->size);"),
)


def patch(tree):
    """Patches a kernel's tree that has not been patched."""
    for anchor in ANCHORS:
        set_at(tree / anchor.file, anchor)
    for name in ("simulated.c", "simulated.h"):
        shutil.copy(GUEST / name, tree / RESCTRL / name)


def set_at(path, anchor):
    """Changes a file at one anchor."""
    text = path.read_text()
    if (times := text.count(anchor.text)) != 1:
        raise NoAnchor(f"{anchor.file} has {anchor.text.strip()!r} {times} times, and not once")
    path.write_text(text.replace(anchor.text, anchor.becomes))
