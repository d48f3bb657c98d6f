"""A row of the benchmark: a storm, and how its script is written."""
from collections import namedtuple

from storms.limits import repeats

# What bounds a play on an idle machine, unless its report is long: seconds and memory.
SMALL = "3 s, 1 GB"

# A storm's name, the program and the words that play it, how many things are repeated, what writes the script with so many of them, what
# bounds the play, and the words by which `resctrl_check` makes the input from the script, if it does.
Row = namedtuple("Row", "name program words count write bound export", defaults=(SMALL, None))


def repeated(name, words, state, lines, program="resctrl_sim", **more):
    """A row with lines that stand in a state of the tree as often as a script may have them."""

    def write(script, count):
        script.write(f"{state.machine}\ntasks {state.tasks}\nphase\nthread\n")
        script.writelines(line + "\n" for line in state.lines)
        script.write("".join(line + "\n" for line in lines) * count)

    return Row(name, program, words.split(), repeats(state.lines, lines, state.slices, state.rmids), write, **more)
