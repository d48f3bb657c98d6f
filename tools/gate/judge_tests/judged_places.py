"""Compares what `check` says with the edits that were made, and with the proved checker's answers."""
from concurrent.futures import ThreadPoolExecutor
import glob
import os
import random
import re
import subprocess
import sys

HERE = os.path.dirname(os.path.abspath(__file__))
TOP = os.path.join(HERE, "..", "..", "..")
BIKHNOUN = (sys.executable, os.path.join(TOP, "tools", "bikhnoun"))
sys.path.insert(0, os.path.join(TOP, "tools", "people"))

from changes import changed  # noqa: E402
from statements import wrong_statements  # noqa: E402
from judged.clauses import CLAUSES  # noqa: E402
from judged.command import own_reading  # noqa: E402
from tenants import EDITS, PLACES, SCRIPT, WINDOWS  # noqa: E402

INPUT = "bikhnoun check: standard input: "
ROW = re.compile(r"^\| `no ([^`]*)` \| ([^|]*) \| `(sed [^`]*)` \|", re.MULTILINE)
# Exports that are longer are not changed by chance: each change asks the checker.
MOST_BYTES = 100_000


def asked(program, words, data):
    """What the checker says, with its status."""
    done = subprocess.run([program, *words], input=data, stdout=subprocess.PIPE, check=False)
    return done.returncode, done.stdout


def shown(program, data):
    """What the tool prints, with its status. What is wrong with an invalid file stands on standard error, after the file's name."""
    done = subprocess.run([*BIKHNOUN, "check", "--program", program], input=data, capture_output=True, check=False)
    return done.returncode, done.stdout.decode("ascii") + done.stderr.decode("ascii").removeprefix(INPUT)


def wrong_clauses(program):
    """The clauses that the page tells with other words, and those of whose examples another place is named."""
    with open(os.path.join(TOP, "docs", "JOURNALS.md"), encoding="utf-8") as file:
        rows = [(clause, words.strip(), command) for clause, words, command in ROW.findall(file.read())]
    told = [(clause, words) for clause, words, _ in rows]
    if told != list(CLAUSES.items()):
        yield "docs/JOURNALS.md", list(CLAUSES.items()), told
    with open(os.path.join(TOP, "examples", "journals", "administrators.journal"), "rb") as file:
        journal = file.read()
    for clause, _, command in rows:
        data = subprocess.run(command, shell=True, input=journal, stdout=subprocess.PIPE, check=True).stdout
        status, text = shown(program, data)
        first, _, place = text.splitlines()
        if (status, first) != (6, f"no {clause}") or not place.startswith(f"not proved: {PLACES[clause]}"):
            yield command, PLACES[clause], text


def edited(journal, edit):
    """The file after an edit of its one line of this pattern, and the number of that line."""
    text = journal.decode("ascii")
    found = list(re.finditer(rf"^{edit.pattern}$" if not edit.pattern.endswith(r"\n") else edit.pattern, text, re.MULTILINE))
    if len(found) != 1:
        raise ValueError(f"{edit.what}: {len(found)} lines are {edit.pattern}")
    put = found[0].expand(edit.line)
    return (text[: found[0].start()] + put + text[found[0].end() :]).encode("ascii"), text.count("\n", 0, found[0].start()) + 1


def wrong_edits(program, journal):
    """The edits whose place is not named, or not with the reason."""
    for edit in EDITS:
        data, line = edited(journal, edit)
        wanted = asked(program, ["check"], data)
        status, text = shown(program, data)
        first, *rest = text.splitlines()
        told = rest[1] if first.startswith("no ") else "\n".join(rest)
        at = re.search(r"\(line (\d+)(?: of the script)?\)", told)
        is_there = not at or int(at[1]) == line or edit.is_far
        if (status, f"{first}\n".encode()) != wanted or not first.startswith(edit.answer) or not is_there:
            yield edit.what, (edit.answer, line), text
        elif not re.search(edit.place, told) or edit.reason not in told or not all(one.startswith("not proved: ") for one in rest):
            yield edit.what, (edit.place, edit.reason), text


def wrong_windows(program, journal):
    """What is said of a run, if it does not have the windows after the answer, and then what is not proved."""
    status, text = shown(program, journal)
    first, *rest = text.splitlines()
    windows, others = rest[: len(WINDOWS)], rest[len(WINDOWS) :]
    if (status, first, *windows) != (0, "yes", *WINDOWS) or not others or not all(one.startswith("not proved: ") for one in others):
        yield "windows of a run", WINDOWS, text


def own_answer(data):
    """What this reading answers, with a place for each clause."""
    answer, place, lines = own_reading(data)
    list(lines)
    return answer if (place is not None) == answer.startswith("no ") else f"{answer} without a place"


def differences(program, count):
    """The changed files of which the checker says something else."""
    scripts = [open(name, "rb").read() for name in sorted(glob.glob(os.path.join(TOP, "examples", "*.script")))]
    exports = [asked(program, ["export", "step"], script)[1] for script in [SCRIPT, *scripts]]
    exports = [export for export in exports if len(export) <= MOST_BYTES]
    files = list(exports)
    for seed in range(count):
        dice = random.Random(f"journals {seed}")
        files.append(changed(dice, dice.choice(exports)))
    with ThreadPoolExecutor(2) as workers:
        answers = list(workers.map(lambda data: asked(program, ["check"], data)[1].decode("ascii").strip(), files))
    pairs = [(data, own_answer(data), answer) for data, answer in zip(files, answers)]
    wrong = [pair for pair in pairs if pair[1] != pair[2]]
    return wrong, len(files), sum(answer.startswith("no ") for answer in answers)


def main(words):
    program, count = os.path.abspath(words[1]), int(words[2]) if len(words) > 2 else 500
    journal = asked(program, ["export", "step"], SCRIPT)[1]
    wrong = [*wrong_clauses(program), *wrong_edits(program, journal), *wrong_windows(program, journal), *wrong_statements(program, journal, BIKHNOUN)]
    differ, tried, refused = differences(program, count)
    for what, wanted, got in [*wrong, *((data[-300:], own, answer) for data, own, answer in differ)][:5]:
        print(f"{what!r}\n  {wanted!r}\n  {got!r}")
    failed = len(wrong) + len(differ)
    print(f"check: {len(PLACES) + len(EDITS)} edits, {tried} files of which {refused} are no run; {failed} failed")
    return 1 if failed else 0
