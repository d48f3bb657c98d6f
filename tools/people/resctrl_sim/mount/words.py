"""The command line of the mount."""
import argparse
import os
import sys

from ..host import Host, machine_keys
from ..names import tool_name

EXAMPLE = """examples:
  mkdir sim && %(prog)s --machine "domains=2 sets=2048 ways=12" --tasks 1000-1999 --record record.script sim &
  mkdir sim/p0 && echo "L3:0=3;1=3" > sim/p0/schemata && cat sim/info/L3/bit_usage
  echo "sweep 1000 0 0 100 64" > sim/.sim/access && cat sim/mon_data/mon_L3_00/llc_occupancy
  fusermount3 -u sim

  sudo %(prog)s --run pqos -I -s"""

NAME = tool_name("mount")
# A server that another process starts is called by no other name.
SERVER = "bikhnoun mount"


class Stopped(Exception):
    """Why there is no mount, in one sentence."""


def words_of(arguments):
    """The words of the command line."""
    parser = argparse.ArgumentParser(
        prog=NAME,
        description="Shows the simulated resctrl tree as a directory, until it is unmounted.",
        epilog=EXAMPLE,
        formatter_class=argparse.RawDescriptionHelpFormatter,
    )
    parser.add_argument("directory", metavar="DIR", nargs="?", help="an empty directory, where the tree is shown")
    parser.add_argument("--machine", metavar="KEYS", help="the keys of the machine line; `host` is for this host's, --run's default")
    parser.add_argument("--tasks", default="", metavar="IDS", help="the tasks that are declared, as 1-8, 1000-1999 or 3,5")
    parser.add_argument("--pids", action="store_true", help="processes of this machine are declared as they are written to `tasks`")
    parser.add_argument("--strict", action="store_true", help="answer as a kernel where the simulator does not; docs/MOUNT.md says where")
    parser.add_argument("--program", metavar="PATH", help="resctrl_sim, where it is not the one built here")
    files = parser.add_mutually_exclusive_group()
    files.add_argument("--record", metavar="FILE", help="a new file, which holds the script so far after each operation")
    files.add_argument("--resume", metavar="FILE", help="a record to go on from and in: the tree comes up as it was left")
    parser.add_argument("--force", action="store_true", help="with --record: in place of a file that is there already")
    parser.add_argument(
        "--run", nargs=argparse.REMAINDER, metavar="COMMAND ..", help="runs a command that sees the tree at /sys/fs/resctrl; the last word"
    )
    given = parser.parse_args(arguments)
    given.tasks = given.tasks.replace(",", " ")
    if given.run is None and given.directory is None:
        parser.error("DIR is missing")
    if given.run == [] or given.run and given.directory:
        parser.error("--run has a command, and no DIR")
    if given.force and not given.record:
        parser.error("--force goes with --record")
    return given


def check(given):
    """Stops where something is missing, or where machine and tasks would be told twice."""
    if not os.path.exists("/dev/fuse"):
        raise Stopped("there is no /dev/fuse here, so nothing can be mounted")
    if given.resume and (given.machine or given.tasks):
        raise Stopped(f"{given.resume} has the machine and the tasks, so --machine and --tasks do not go with --resume")
    if given.run is None:
        check_directory(given.directory)


def machine_of(given):
    """The keys of the machine line. Under --run it is this host's unless another is told."""
    told = "host" if given.machine is None and given.run and not given.resume else given.machine or ""
    if "host" not in told.split():
        return told
    keys, remarks = machine_keys(told, Host.read())
    warn(f"the machine is this host's: {keys}{''.join(f'; {remark}' for remark in remarks)}")
    return keys


def check_directory(directory):
    """Stops where the tree cannot be shown in a directory."""
    try:
        names = os.listdir(directory)
    except FileNotFoundError as why:
        raise Stopped(f"{directory} is not there") from why
    except NotADirectoryError as why:
        raise Stopped(f"{directory} is not a directory") from why
    except OSError as why:
        raise Stopped(f"{directory} is what an ended mount has left: fusermount3 -u {directory}") from why
    if names:
        raise Stopped(f"{directory} is not empty")


def say(line):
    print(line, file=sys.stderr, flush=True)


def warn(why):
    """Says what went wrong, after the name of the tool."""
    say(f"{NAME}: {why}")
