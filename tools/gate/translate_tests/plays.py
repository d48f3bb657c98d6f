"""Plays a script and its translation, and says what differs."""
import os
import re
import subprocess

from explained.kinds import CDP, LEVELS
from resctrl_sim import play
from resctrl_sim.program import Checker
from scripts import CodeAndData, Levels
from translated.levels import l2_script, l3_script, steps_of
from translated.reading import read_recorded
from translated.twins import Translation

TWINS = ("data", "code")
CDP_WINDOW = re.compile(
    r"window (?P<domain>\d+) group (?P<gid>\d+) (?P<kind>data|code) ways (?P<ways>\d+) from \d+: "
    r"accesses (?P<accesses>\d+) hits (?P<hits>\d+) covered (?P<covered>\d+) hits (?P<covered_hits>\d+) private (?P<private>\d+)"
)
COUNTS = r"{0} accesses (?P<{0}_accesses>\d+) hits (?P<{0}_hits>\d+) misses (?P<{0}_misses>\d+)"
HEAD = r"group (?P<gid>\d+) (?P<path>\S+): "
GROUP = {CDP: re.compile(HEAD + ", ".join(map(COUNTS.format, TWINS))), LEVELS: re.compile(HEAD + ", ".join(map(COUNTS.format, ("l2", "l3"))))}
VALID = re.compile(r"(l2 |l3 |)domain \d+: valid (\d+) of (\d+)")


def report_of(variable, text):
    """The lines of a play of a script of one of both kinds."""
    done = subprocess.run([os.environ[variable]], input=text, stdout=subprocess.PIPE, text=True, check=True)
    return done.stdout.splitlines()


def counts_of(found, part):
    """The accesses, hits and misses of a part of a line."""
    return tuple(int(found[f"{part}_{what}"]) for what in ("accesses", "hits", "misses"))


def groups_of(lines, kind):
    """The lines of groups."""
    return [found for line in lines if (found := GROUP[kind].fullmatch(line))]


def valid_of(lines, level):
    """What the caches of a level hold at the end, of how much."""
    return [(int(found[2]), int(found[3])) for line in lines if (found := VALID.fullmatch(line)) and found[1] == level]


def reads_of(lines):
    """What each accepted read shows, in order."""
    found, is_read = [], False
    for line in lines:
        if line.startswith("|"):
            found[-1].append(line[1:])
        elif re.fullmatch(r"\d+ read .*: ok", line):
            found.append([])
    return found


def plain_play(text):
    """The report of a plain script, and what is wrong with it by itself."""
    report = play(text, windows=True)
    return report, f"refused is `{report.refused[0].words}`, {report.refused[0].result}" if report.refused else None


def plain_counts(report):
    return [(group.accesses, group.hits, group.misses) for group in report.groups]


def plain_reads(report):
    return [list(command.text) for command in report.commands if command.words.startswith("read ")]


def schemata_line(lines, resource):
    """The masks of a resource, as a plain schemata has them; other files as they are."""
    own = [line.replace(resource, "L3", 1) for line in lines if line.startswith(f"{resource}:")]
    return own if any(line.startswith("L") for line in lines) else lines


def cdp_windows(lines):
    """The windows, with the twins' numbers in place of a group's, without the positions."""
    names = ("domain", "gid", "ways", "accesses", "hits", "covered", "covered_hits", "private")
    for line in lines:
        if found := CDP_WINDOW.fullmatch(line):
            given = {name: int(found[name]) for name in names} | {"gid": 2 * int(found["gid"]) + TWINS.index(found["kind"])}
            yield tuple(given[name] for name in names)


def plain_windows(report):
    return [(w.domain, w.gid, w.ways, w.accesses, w.hits, w.covered, w.covered_hits, w.private) for w in report.windows]


def first_difference(pairs):
    """Which of these values differ, if any do."""
    return next((f"{what} are {got}, and not {wanted}" for what, got, wanted in pairs if got != wanted), None)


def twin_reads(lines, step):
    """What the reads of both twins show where these are the reads of their group. The twin of a task has a number of its own, and the
    mode of twins is the group's but where they share ways."""
    for shown in reads_of(lines):
        tasks = [line for line in shown if line.isdigit()]
        yield from (schemata_line(shown, "L3DATA"), [str(int(line) + step) for line in tasks] if tasks else schemata_line(shown, "L3CODE"))


def fault_of_cdp(number):
    """What differs between the plays of a script and of its translation, or None; and how many windows were compared."""
    text = CodeAndData(number).text()
    lines = report_of("RESCTRL_CDP", text)
    translation = Translation(read_recorded(text.encode("ascii"), "it", CDP))
    plain, warnings = translation.made()
    report, fault = plain_play(plain)
    groups = groups_of(lines, CDP)
    pairs = [
        ("counts", plain_counts(report), [counts_of(group, kind) for group in groups for kind in TWINS]),
        ("lines at the end", [(domain.valid, domain.places) for domain in report.domains], valid_of(lines, "")),
    ]
    reads = zip(plain_reads(report), twin_reads(lines, translation.step))
    pairs += [("reads", got, wanted) for got, wanted in reads if not warnings or wanted != ["exclusive"]]
    windows = [] if warnings else sorted(cdp_windows(lines))
    pairs += [] if warnings else [("windows", sorted(plain_windows(report)), windows)]
    return fault or first_difference(pairs) or judged(number, plain), len(windows)


def fault_of_levels(number):
    """What differs between the play of a script and of its translations, or None; and that no windows were compared."""
    text = Levels(number).text()
    lines = report_of("RESCTRL_L2", text)
    script = read_recorded(text.encode("ascii"), "it", LEVELS)
    steps = steps_of(script)
    for level, make in (("l2", l2_script), ("l3", l3_script)):
        plain = make(script, steps)
        report, fault = plain_play(plain)
        pairs = [
            ("counts", plain_counts(report), [counts_of(group, level) for group in groups_of(lines, LEVELS)]),
            ("lines at the end", [(domain.valid, domain.places) for domain in report.domains], valid_of(lines, f"{level} ")),
            ("reads", plain_reads(report), [schemata_line(shown, level.upper()) for shown in reads_of(lines)]),
        ]
        if fault := fault or first_difference(pairs) or judged(number, plain):
            return f"{level}: {fault}", 0
    return None, 0


def judged(number, plain):
    """What the checker says of the journals of a plain script, of each tenth one, where it is not yes."""
    if number % 10:
        return None
    checker = Checker()
    answer = checker.check(checker.export(plain))
    return None if answer == "yes" else f"its journals: {answer}"
