"""Tries `explain` on usual mistakes, and compares its verdict with the programs' on many scripts with mistakes.

usage: agree.py SIMULATOR CHECKER CDP LEVELS [COUNT]
"""
from concurrent.futures import ThreadPoolExecutor
import glob
import os
import re
import subprocess
import sys

HERE = os.path.dirname(os.path.abspath(__file__))
TOP = os.path.join(HERE, "..", "..", "..")
EXPLAIN = (sys.executable, os.path.join(TOP, "tools", "bikhnoun"), "explain")
sys.path.insert(0, os.path.join(TOP, "tools", "people"))

from explained.kinds import CDP, LEVELS, kind_of  # noqa: E402
from explained.lines import lines_of  # noqa: E402
from explained.pairs import read_pair_script  # noqa: E402
from explained.reader import Fault, read_script  # noqa: E402
from mistakes import LAWFUL, REFUSED  # noqa: E402
from mutants import mutants, weighed  # noqa: E402
from others import CASES  # noqa: E402

# No script of these takes so long. One that did would be counted as one on which they do not agree.
SECONDS = 60


def program_verdict(program, data, words=("step", "--quiet")):
    """The program's line on a script that it refuses, and its status on one that it plays."""
    try:
        done = subprocess.run([program, *words], input=data, capture_output=True, timeout=SECONDS, check=False)
    except subprocess.TimeoutExpired:
        return f"nothing in {SECONDS} seconds"
    return done.stdout.decode("ascii").rstrip("\n") if done.returncode == 1 else f"status {done.returncode}"


def own_verdict(data):
    """The same by the reader of `explain`."""
    read = read_script(data)
    return read.program_line() if isinstance(read, Fault) else "status 0"


def shown(program, data):
    """What `explain` writes of a script, with its exit status."""
    done = subprocess.run([*EXPLAIN, "--program", program, "-"], input=data, capture_output=True, check=False)
    return done.stdout.decode("ascii") + done.stderr.decode("ascii") + f"status {done.returncode}"


def wrong_refusals(workers, program):
    """The mistakes whose explanation is another."""
    texts = list(workers.map(lambda case: shown(program, case[0].encode("latin-1")), REFUSED))
    for (script, line, column, what, piece), text in zip(REFUSED, texts):
        wanted = (f"the program: line {line}: {what}\n", piece, "status 1", f"-:{line}:{column}: {what}\n")
        if not all(part in text for part in wanted):
            yield script, wanted, text


def wrong_remarks(workers, program):
    """The valid scripts of which no such remark is made."""
    texts = list(workers.map(lambda case: shown(program, case[0].encode("latin-1")), LAWFUL))
    for (script, line, piece), text in zip(LAWFUL, texts):
        place = f"-:{line}:" if line else "-: remark"
        if not any(part.startswith(place) and piece in part for part in re.split(r"\n(?=-:)", text)):
            yield script, (place, piece), text


def differences(workers, program, scripts):
    """The scripts of which the program says something else."""
    verdicts = list(workers.map(lambda data: program_verdict(program, data), scripts))
    refused = sum(verdict.startswith("line") for verdict in verdicts)
    pairs = [(data[:2000], own_verdict(data), verdict) for data, verdict in zip(scripts, verdicts)]
    return [pair for pair in pairs if pair[1] != pair[2]], refused


def wrong_cases(workers, programs):
    """The other files and words of which something else is said. The programs are named by their variables."""
    environment = os.environ | programs

    def shown_case(case):
        words, text, _, _ = case
        return subprocess.run([*EXPLAIN, *words], input=text.encode("latin-1"), capture_output=True, env=environment, check=False)

    for (words, text, status, pieces), done in zip(CASES, workers.map(shown_case, CASES)):
        said = (done.stdout + done.stderr).decode("ascii")
        if done.returncode != status or not all(piece in said for piece in pieces) or "Traceback" in said:
            yield (words, text), (status, pieces), (done.returncode, said)


def pair_differences(workers, program, kind, count):
    """The scripts of one kind of which the program says something else, and how many were tried."""
    names = sorted(glob.glob(os.path.join(TOP, "examples", "pairs", f"*.{kind}.report")))
    texts = [open(name.removesuffix(f".{kind}.report") + ".script", encoding="ascii").read() for name in names]
    strange = [text for text in texts if kind_of(lines_of(text.encode("ascii"))) != kind]
    scripts = [*(text.encode("ascii") for text in texts), *mutants(texts, count)]
    verdicts = workers.map(lambda data: program_verdict(program, data, ("--quiet",)), scripts)
    read = [read_pair_script(data, kind) for data in scripts]
    own = [one.program_line() if isinstance(one, Fault) else "status 0" for one in read]
    pairs = [(data[:2000], mine, verdict) for data, mine, verdict in zip(scripts, own, verdicts)]
    return [(text, kind, "another kind") for text in strange] + [pair for pair in pairs if pair[1] != pair[2]], len(scripts)


def example_texts():
    for name in sorted(glob.glob(os.path.join(HERE, "../../../examples/*.script"))):
        with open(name, encoding="ascii") as file:
            yield file.read()


def main():
    program, checker, cdp, levels = map(os.path.abspath, sys.argv[1:5])
    programs = {"RESCTRL_SIM": program, "RESCTRL_CHECK": checker, "RESCTRL_CDP": cdp, "RESCTRL_L2": levels}
    count = int(sys.argv[5]) if len(sys.argv) > 5 else 2000
    scripts = [*mutants(list(example_texts()), count), *weighed()]
    with ThreadPoolExecutor(os.cpu_count()) as workers:
        wrong = [*wrong_refusals(workers, program), *wrong_remarks(workers, program), *wrong_cases(workers, programs)]
        differ, refused = differences(workers, program, scripts)
        pairs = [pair_differences(workers, one, kind, count // 10) for one, kind in ((cdp, CDP), (levels, LEVELS))]
    tried = len(scripts) + sum(number for _, number in pairs)
    differ = [*differ, *(one for found, _ in pairs for one in found)]
    for script, wanted, got in [*wrong, *differ][:5]:
        print(f"{script!r}\n  {wanted!r}\n  {got!r}")
    failed = len(wrong) + len(differ)
    print(f"explain agrees with the programs on {tried - len(differ)} of {tried} scripts, {refused} of resctrl_sim's refused")
    print(f"explain: {len(REFUSED) + len(LAWFUL) + len(CASES) + tried - failed} passed, {failed} failed")
    sys.exit(1 if failed else 0)


main()
