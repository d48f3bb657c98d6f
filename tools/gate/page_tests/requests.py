"""What requests to the page are answered."""
import json
import os
import re
import signal
import subprocess
import tempfile
import time

from paging.files import names
from paging.plays import FLAGS

from .chosen import chosen
from .served import get, played, post, request, serving

TOOL = os.path.join(os.path.dirname(os.path.abspath(__file__)), "..", "..", "bikhnoun")
BAD = "machine sets=64\ntasks 1\nphase\nthread\naccess 1 0 1f40\n"
RACE = "machine sets=4 ways=4\ntasks 1-2\nphase\nthread\nsweep 1 0 0 40 64\nwrite /schemata L3:0=3\nthread\nsweep 2 0 0 40 64\n"


def wants(found, what, seen, wanted):
    """Notes where something is not as it has to be."""
    if seen != wanted:
        found.append(f"{what}: {seen!r}, and not {wanted!r}")


def refusals(server):
    """Requests that have to be refused."""
    found, token, body = [], server.token, b"{}"
    for name, reply, status in (
        ("no token", request(server, "GET", "/"), 403),
        ("another token", request(server, "GET", f"/{token[:-1]}~/"), 403),
        ("a token without a slash", request(server, "GET", f"/{token}"), 403),
        ("a play without a token", request(server, "POST", "/play", body, Content_Type="application/json"), 403),
        ("another host", get(server, "", Host="example.org"), 403),
        ("another port", get(server, "", Host="127.0.0.1:1"), 403),
        ("another origin", post(server, "play", {"script": ""}, Origin="http://example.org"), 403),
        ("no such file", get(server, "nothing.js"), 404),
        ("a file above the page", get(server, "../server.py"), 404),
        ("a file above the page, in other letters", get(server, "%2e%2e/server.py"), 404),
        ("a form", post(server, "play", {"script": ""}, Content_Type="text/plain"), 415),
        ("no script", post(server, "play", {}), 400),
        ("a script that is a number", post(server, "marks", {"script": 1}), 400),
        ("another way to play", post(server, "play", {"script": "", "how": "gen"}), 400),
        ("another command", request(server, "PUT", f"/{token}/start", body), 501),
        ("a body of no length", request(server, "POST", f"/{token}/play", Content_Type="application/json"), 411),
        ("a body that is too long", request(server, "POST", f"/{token}/play", Content_Type="application/json", Content_Length="999999999"), 413),
    ):
        wants(found, name, reply.status, status)
        wants(found, f"{name} shows the page", b"slider" in reply.body, False)
    return found


def files(server):
    """The files of the page, which names nothing outside of itself."""
    found = []
    for name in ["", *names()]:
        reply = get(server, name)
        wants(found, f"file {name}", reply.status, 200)
        wants(found, f"{name} may load what is elsewhere", "default-src 'none'" in reply.headers["Content-Security-Policy"], True)
        wants(found, f"addresses in {name}", [one for one in re.findall(rb"https?://[^\s\"']+", reply.body) if b"www.w3.org" not in one], [])
    wants(found, "the script of the start", json.loads(get(server, "start").body), {"script": None, "how": "step"})
    return found


def plays(server, program):
    """Each example, played by a request and by the program itself."""
    found = []
    for example in chosen():
        words = [program, "step", *FLAGS]
        wanted = subprocess.run(words, input=example["text"].encode("ascii"), stdout=subprocess.PIPE, check=False).stdout
        status, facts, report = played(server, example["text"])
        if (status, report) != (200, wanted):
            found.append(f"{example['name']} has another report")
        wants(found, f"the threads of {example['name']}", len(facts["ops"]), sum(map(len, facts["phases"])))
    return found


def marks(server):
    """A script with a bad word, whole and while it is typed."""
    found = []
    status, facts, report = played(server, BAD)
    wants(found, "a bad script", (status, facts["said"], report), (200, "line 5: bad argument", b""))
    for mark in (facts["marks"][0], json.loads(post(server, "marks", {"script": BAD}).body)[0]):
        wants(found, "the mark of a bad script", (mark["kind"], mark["line"], mark["column"], mark["width"]), ("fault", 5, 11, 4))
    after = json.loads(post(server, "marks", {"script": "machine\n# \u00e4\U0001f600\n"}).body)[0]
    wants(found, "the mark of a letter that is not ASCII", (after["line"], after["column"], after["width"]), (2, 2, 1))
    return found


def race(server):
    """A race, and its order played step by step: both have the same histories."""
    found = []
    _, facts, report = played(server, RACE, "run")
    reply = post(server, "order", {"script": RACE, "report": report.decode("ascii")})
    wants(found, "the order of a race", reply.status, 200)
    wants(found, "the lines of the ops of a race", facts["ops"], [[[0, 5, 1], [40, 6, 1]], [[0, 8, 1]]])
    _, _, again = played(server, json.loads(reply.body)["script"])
    wants(found, "a race that is played again has the same report", again == report, True)
    return found


def heed_interrupts():
    """What a shell without job control starts in the background has interrupts ignored, and so would what it starts."""
    signal.signal(signal.SIGINT, signal.SIG_DFL)


def ending(program):
    """The tool by its command line: it prints its address, leaves no file, and ends at an interrupt."""
    found = []
    with tempfile.TemporaryDirectory() as folder:
        command = [TOOL, "page", "--program", program]
        process = subprocess.Popen(command, cwd=folder, stdout=subprocess.PIPE, stderr=subprocess.PIPE, text=True, preexec_fn=heed_interrupts)
        address = process.stdout.readline()
        wants(found, "the address", bool(re.fullmatch(r"http://127\.0\.0\.1:\d+/[\w-]{32}/\n", address)), True)
        time.sleep(0.1)
        process.send_signal(2)
        said = process.communicate(timeout=20)
        wants(found, "what an interrupted page says", (process.returncode, *said), (0, "", ""))
        wants(found, "files that a page has written", os.listdir(folder), [])
    return found


def faults(program, skipped):
    """All that is not as it has to be."""
    with serving(program) as server:
        found = [*refusals(server), *files(server), *plays(server, program), *marks(server), *race(server)]
    return found + ending(program)
