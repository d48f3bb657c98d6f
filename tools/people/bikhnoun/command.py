"""The command line of `bikhnoun`: its words, and how each ends."""
import argparse
from difflib import get_close_matches
import errno
from importlib import import_module
import os
import signal
import sys

from resctrl_sim.names import old_word, tool_name
from resctrl_sim.program import Broken
from resctrl_sim.programs import NO_MEMORY, UNREAD, UNWRITTEN, Missing

from . import mounting, planning, proved, versions
from .telling import Stopped, say

INTERRUPTED = 130
# What only a write may be answered.
FULL = (errno.ENOSPC, errno.EDQUOT, errno.EFBIG, errno.EIO)
DEBUG_VARIABLE = "BIKHNOUN_DEBUG"
DEBUG = os.environ.get(DEBUG_VARIABLE)


def tool(module):
    """What runs a tool of this module, which is read only if it is asked for."""
    return lambda arguments, name: import_module(module).main(arguments)


# Each word: what runs it, and what it does.
WORDS = {
    "play": (proved.one("play"), proved.WORDS["play"].purpose),
    "run": (proved.one("run"), proved.WORDS["run"].purpose),
    "explain": (tool("explained.command"), "says at which word and why a script, a journal or a trace is invalid, and warns about likely mistakes"),
    "check": (tool("judged.command"), "says whether journals are a run of their script: yes, or no and the clause that is false; and where"),
    "statement": (tool("stated.command"), "writes a page about journals for an auditor, ready to be signed"),
    "order": (proved.one("order"), proved.WORDS["order"].purpose),
    "report": (proved.one("report"), proved.WORDS["report"].purpose),
    "export": (proved.export, "plays a script, and writes it with the journals of this play"),
    "plan": (planning.plan, "counts how often programs hit with each number of ways, divides ways, and draws the curves"),
    "cdp": (proved.one("cdp"), proved.WORDS["cdp"].purpose),
    "levels": (proved.one("levels"), proved.WORDS["levels"].purpose),
    "translate": (tool("translated.command"), "makes plain scripts of one for `cdp` or `levels`, for journals, the checker, JSON and occupancy"),
    "mount": (mounting.main, "shows the simulated tree as a directory, or runs a command that sees it"),
    "traces": (tool("tracing.command"), "makes a script of memory traces of programs"),
    "ways": (tool("sweeps.command"), "plays a script with each number of ways of a group"),
    "timeline": (tool("timelines.command"), "shows who holds which lines and ways of a cache over time"),
    "page": (tool("paging.command"), "shows a play as a page in the browser"),
    "kernel": (tool("kernels.command"), "plays scripts on a running Linux, and says where it answers differently"),
    "version": (versions.main, "prints version, commit, kit, and the hash of each program"),
}


def parser():
    width = max(map(len, WORDS))
    listed = "\n".join(f"  {word:{width}}  {purpose}" for word, (_, purpose) in WORDS.items())
    words = argparse.ArgumentParser(
        prog="bikhnoun", usage="bikhnoun WORD ...", formatter_class=argparse.RawDescriptionHelpFormatter, allow_abbrev=False,
        description="A proved simulator of Linux resctrl and of the caches that it divides.",
        epilog=f"words:\n{listed}\n\n`bikhnoun WORD --help` says what a word takes.",
    )
    words.add_argument("--version", action="version", version=f"bikhnoun {versions.number()}")
    words.add_argument("word", metavar="WORD", nargs="?")
    words.add_argument("more", nargs=argparse.REMAINDER, help=argparse.SUPPRESS)
    return words


def split(arguments, called):
    """The word and what follows it. A link with the name of an earlier version is its word."""
    if word := old_word(called):
        return word, list(arguments)
    if arguments and arguments[0] in WORDS:
        return arguments[0], arguments[1:]
    words = parser()
    given = words.parse_args(arguments)
    if given.word == "help":
        return (given.more[0], ["--help"]) if given.more and given.more[0] in WORDS else (None, ["--help"])
    if given.word is None:
        words.error("a word is missing; `bikhnoun --help` lists them")
    close = get_close_matches(given.word, WORDS, 1)
    words.error(f"there is no word {given.word!r}{f'; is it {close[0]!r}?' if close else '; `bikhnoun --help` lists them'}")


def begun(arguments):
    """Runs a word, and returns its exit status."""
    word, rest = split(arguments, sys.argv[0])
    if word is None:
        parser().parse_args(rest)
    if rest[:1] == ["--version"]:
        print(f"{tool_name(word)} {versions.number()}")
        return 0
    try:
        if sys.stdout is None:
            raise Stopped("standard output is closed", UNWRITTEN)
        status = WORDS[word][0](rest, tool_name(word))
        sys.stdout.flush()
        return status
    except Stopped as why:
        say(tool_name(word), why)
        return why.status
    except BrokenPipeError:
        raise
    except OSError as why:
        return told(tool_name(word), why)
    except UnicodeDecodeError as why:
        say(tool_name(word), f"the input is not text in {why.encoding.upper()}: byte {why.start} is {why.object[why.start]:02x}")
    except (Missing, Broken) as why:
        say(tool_name(word), why)
    except MemoryError:
        say(tool_name(word), "out of memory")
        return NO_MEMORY
    except Exception as why:
        if DEBUG:
            raise
        say(tool_name(word), f"a mistake of this tool, please report it: {type(why).__name__}: {why} ({DEBUG_VARIABLE}=1 shows where)")
    return UNREAD


def told(name, why):
    """Tells what could not be read or written, and gives the exit status. An error of a file has its name."""
    is_output = why.filename is None and why.errno in FULL
    if is_output:
        leave_output()
    where = "standard output" if is_output else why.filename
    say(name, ": ".join(str(part) for part in (where, why.strerror) if part) or why)
    return UNWRITTEN if is_output else UNREAD


def leave_output():
    """What is left to write goes nowhere, so that nothing tries it once more at the end."""
    os.dup2(os.open(os.devnull, os.O_WRONLY), 1)


def end_by(number):
    """Ends as a program that leaves this signal alone, so that a shell sees it."""
    leave_output()
    signal.signal(number, signal.SIG_DFL)
    os.kill(os.getpid(), number)


def main(arguments):
    """Runs the command with these words, and returns its exit status."""
    if sys.stderr is None:
        sys.stderr = open(os.devnull, "w", encoding="utf-8")
    try:
        return begun(arguments)
    except KeyboardInterrupt:
        end_by(signal.SIGINT)
    except BrokenPipeError:
        end_by(signal.SIGPIPE)
    return INTERRUPTED
