"""The command line of `bikhnoun page`."""
import argparse
import signal
import sys
import webbrowser

from resctrl_sim.names import tool_name
from resctrl_sim.programs import SIMULATOR, find, required

from .plays import Failed, play
from .server import Server
from .single import single_file

PURPOSE = "Shows one play of a script as a page in the browser: who holds which ways of each cache, entry by entry."
NOTES = """The page is served on 127.0.0.1, at an address with a token that nobody else knows, until Ctrl-C. No request writes a file.
With --export nothing is served: FILE is one HTML file of this play, which needs no server.

Exit status: 0 the page was served, or FILE was written; 1 the script is invalid (with --export); 2 the command line is wrong;
3 something could not be read, written or run."""


def words_given(arguments):
    words = argparse.ArgumentParser(prog=tool_name("page"), description=PURPOSE, epilog=NOTES, formatter_class=argparse.RawDescriptionHelpFormatter)
    words.add_argument("script", nargs="?", metavar="SCRIPT", help="the script to begin with; - is standard input (default: an example)")
    words.add_argument("--run", action="store_true", help="play it with a real thread for each of its threads, and not step by step")
    words.add_argument("--export", metavar="FILE", help="write the play into this HTML file, and serve nothing")
    words.add_argument("--open", action="store_true", help="open the page in a browser")
    words.add_argument("--port", type=int, default=0, help="the port (default: one that is free)")
    words.add_argument("--program", default=find(SIMULATOR), help="resctrl_sim, if it is neither built here nor on the PATH")
    given = words.parse_args(arguments)
    if given.export and not given.script:
        words.error("--export needs a SCRIPT")
    if not 0 <= given.port < 65536:
        words.error("--port is a number below 65536")
    return given


def bytes_of(name):
    """The script."""
    if name == "-":
        return sys.stdin.buffer.read()
    with open(name, "rb") as file:
        return file.read()


def export(given, data):
    """Writes the page of one play."""
    done = play(given.program, data, how_of(given))
    if done.report is None:
        print(f"{tool_name('page')}: the program says `{done.facts['said']}`; bikhnoun explain says more", file=sys.stderr)
        return 1
    with open(given.export, "w", encoding="utf-8") as file:
        file.write(single_file(data, done))
    return 0


def how_of(given):
    return "run" if given.run else "step"


def interrupt(number, frame):
    raise KeyboardInterrupt


def serve(given, data):
    """Serves the page until Ctrl-C, or until the process is told to end."""
    signal.signal(signal.SIGTERM, interrupt)
    try:
        with Server(given.program, data, how_of(given), given.port) as server:
            print(server.address, flush=True)
            if given.open:
                webbrowser.open(server.address)
            server.serve_forever()
    except KeyboardInterrupt:
        pass
    return 0


def main(arguments):
    """Runs the tool with these words, and returns its exit status."""
    try:
        given = words_given(arguments)
        given.program = required(SIMULATOR, given.program)
        data = bytes_of(given.script) if given.script else None
        return export(given, data) if given.export else serve(given, data)
    except Failed as why:
        print(f"{tool_name('page')}: {why}", file=sys.stderr)
    except BrokenPipeError:
        raise
    except OSError as why:
        print(": ".join(filter(None, [tool_name("page"), why.filename, why.strerror])), file=sys.stderr)
    return 3
