"""Looks for storms: every command in every state, played at a part of the limits of a script and scaled to them."""
import os
import resource
import subprocess
from collections import namedtuple

from storms.commands import commands
from storms.limits import repeats
from storms.states import STATES

# The words of a play, and what is tried by them: the tree alone, all reports, and the threads.
FORMS = (("step", "--quiet"), ("step", "--json", "--journal", "--windows"), ("run", "--quiet"))
# A part of a play that takes longer is ended.
MOST_SECONDS = 1
PAGE = resource.getpagesize()

# A storm's state, command and words; how often it fits into a script; and what a play of all is expected to take: seconds of processor
# time, MB that are touched, and MB of report. The exit status is that of the part.
Found = namedtuple("Found", "name count seconds memory report status")


def play(program, words, path):
    """Seconds of processor time, MB that were touched, MB of the report, and the exit status, of one play that is ended after a while."""

    def bounded():
        resource.setrlimit(resource.RLIMIT_CPU, (MOST_SECONDS, MOST_SECONDS))

    with open(path) as script, open(path + ".report", "w") as report:
        child = subprocess.Popen([program, *words], stdin=script, stdout=report, preexec_fn=bounded)
        _, status, used = os.wait4(child.pid, 0)
    report = os.path.getsize(path + ".report") / 2**20
    return used.ru_utime + used.ru_stime, used.ru_minflt * PAGE / 2**20, report, os.waitstatus_to_exitcode(status)


def written(path, state, lines, count):
    """Writes the script of a state with these lines so often."""
    with open(path, "w") as script:
        script.write(f"{state.machine}\ntasks {state.tasks}\nphase\nthread\n")
        script.writelines(line + "\n" for line in state.lines)
        script.write("".join(line + "\n" for line in lines) * count)


def searched(program, folder, part, word):
    """Plays each command in each state whose name has this word, in each form, and yields what is expected of the whole."""
    path = os.path.join(folder, "script")
    for state_name, make in STATES.items():
        state = make()
        chosen = [(name, lines) for name, lines in commands(state) if word in f"{state_name}: {name}"]
        written(path, state, [], 0)
        empty = {words: play(program, words, path) for words in FORMS if chosen}
        for name, lines in chosen:
            most = repeats(state.lines, lines, state.slices, state.rmids)
            count = max(most // part, 1)
            written(path, state, lines, count)
            for words in FORMS:
                *told, status = play(program, words, path)
                expected = [none + (it - none) * most / count for it, none in zip(told, empty[words])]
                yield Found(f"{state_name}: {name} | {' '.join(words)}", most, *expected, status)
