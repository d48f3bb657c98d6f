"""The command as it is installed with the built programs, and calls of it."""
import atexit
from functools import cache
import os
from pathlib import Path
import re
import subprocess
import sys
import tempfile

TOP = Path(__file__).resolve().parents[3]
EXAMPLES = TOP / "examples"
PROGRAMS = os.environ["BIKHNOUN_PROGRAMS"].split("\n")
SECONDS = 60
FLAG = re.compile(r"(?<![\w-])--[a-z][a-z0-9-]*")
EVERYWHERE = {"--help", "--version"}
# The interpreter of the tests is the command's too.
PATH = f"{os.path.dirname(sys.executable)}:{os.environ['PATH']}"
os.environ["PATH"] = PATH


@cache
def tree():
    """The folder of an installation, which goes when the tests end."""
    folder = tempfile.TemporaryDirectory()
    atexit.register(folder.cleanup)
    subprocess.run(["sh", "tools/packages/install", folder.name, *PROGRAMS], cwd=TOP, check=True)
    return Path(folder.name)


def command(name="bikhnoun"):
    return str(tree() / "bin" / name)


def bikhnoun(*words, name="bikhnoun", data=None, programs=None, **more):
    """What a call writes to both streams, and its exit status. `programs` are others, by their variables."""
    environment = {key: value for key, value in os.environ.items() if not key.startswith("RESCTRL")} | (programs or {})
    given = {"stdin": subprocess.DEVNULL} if data is None and "stdin" not in more else {}
    given |= {} if data is None else {"input": data}
    more = {"stdout": subprocess.PIPE, "stderr": subprocess.PIPE} | given | more
    return subprocess.run([command(name), *map(str, words)], env=environment, timeout=SECONDS, check=False, **more)


@cache
def help_of(*words):
    """What --help of a word says."""
    done = bikhnoun(*words, "--help")
    assert (done.returncode, done.stderr) == (0, b""), (words, done)
    return done.stdout.decode()


def options_of(*words):
    """The options that --help of a word tells, but for those that every word has."""
    return set(FLAG.findall(help_of(*words).partition("options:")[2].partition("\n\n")[0])) - EVERYWHERE


def program(name, *words, data=b""):
    """What a program writes by itself."""
    return subprocess.run([command(name), *words], input=data, stdout=subprocess.PIPE, timeout=SECONDS, check=False)


def stand_in(folder, text, name="resctrl_sim"):
    """A program that does what a shell reads, as the variable of this one names it."""
    path = Path(folder, "stand_in")
    path.write_text(f"#!/bin/sh\n{text}\n")
    path.chmod(0o755)
    return {name.upper(): str(path)}
