"""What a text is: a script of which program, a script with journals, or a trace."""
import re

from resctrl_sim import programs

from .lackey import is_use

KINDS = SIM, CDP, LEVELS, JOURNALS, TRACE = "sim", "cdp", "l2", "journals", "trace"
# A trace is known by most of its first lines.
SAMPLE = 60
PROGRAMS = {SIM: programs.SIMULATOR, CDP: programs.CDP, LEVELS: programs.LEVELS}


def kind_of(lines):
    """What a text most likely is, by words that no other kind has."""
    heads = {line.split(" ", 1)[0].strip("\t") for line in lines}
    if "journal" in heads and any(re.fullmatch("journal 1\r*", line) for line in lines):
        return JOURNALS
    said = [line for line in lines[:SAMPLE] if line.strip(" \t") and not line.startswith(("==", "#"))]
    if sum(map(is_use, said)) * 2 > len(said):
        return TRACE
    if "phase" in heads or "thread" in heads:
        return SIM
    if re.search("[ \t]l2_", said[0] if said else "") or any(re.match(r"[ \t]*write[ \t]+\S*[ \t]+(L3:.*\\n)?[ \t]*L2:", line) for line in lines):
        return LEVELS
    if "trace" in heads or any(re.search("L3(CODE|DATA)[ \t]*:", line) for line in lines):
        return CDP
    return SIM
