"""The page of `statement`: what it has of a run, of journals that are none, and of an invalid file."""
from hashlib import sha256
import subprocess

from tenants import WINDOWS

WIDTH = 80
PIECES = (
    "each of 4 sets, 12 ways and 1 slice", "15 commands, 1 of them refused; 32 accesses; 42 entries", "group 1 /a: exclusive; domain 0: 00f (4 ways)",
    "group 2 /b: 9 to 15; domain 0: 7f0 (7 ways)", "The answer of the proved checker: yes", "What it does not say", "anything of time",
    "least recently used", "without a flush", "a processor is this cache", "signature   ____", "date        ____", *WINDOWS,
)


def stated(program, bikhnoun, data):
    """The status and the page."""
    done = subprocess.run([*bikhnoun, "statement", "--program", program], input=data, capture_output=True, check=False)
    return done.returncode, done.stdout.decode("ascii"), done.stderr.decode("ascii")


def wrong_statements(program, journal, bikhnoun):
    """The pages that lack something."""
    start = journal.index(b"\njournal 1\n") + 1
    with open(program, "rb") as file:
        hashes = [sha256(part).hexdigest() for part in (journal[:start], journal[start:], file.read())]
    status, text, _ = stated(program, bikhnoun, journal)
    plain = " ".join(text.split())
    missing = [piece for piece in (*PIECES, *hashes) if " ".join(piece.split()) not in plain]
    wide = [line for line in text.splitlines() if len(line) > WIDTH]
    if status or missing or wide:
        yield "statement of a run", missing, (status, wide, text[-300:])
    status, text, _ = stated(program, bikhnoun, journal.replace(b"access 1 8 10 1 1 15 0 1 0", b"access 1 8 10 1 1 15 0 0 1"))
    plain = " ".join(text.split())
    if status != 6 or "checker: no D11" not in plain or "nothing follows" not in plain or "access 1.8 of line 0: it is in way 0, so it hits" not in plain:
        yield "statement of no run", 6, (status, text[-300:])
    status, text, why = stated(program, bikhnoun, journal[:-1])
    if status != 1 or text or "bad journal" not in why:
        yield "statement of an invalid file", 1, (status, text, why)
