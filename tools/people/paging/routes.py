"""What each request is answered. No answer writes a file."""
from dataclasses import dataclass
import json
import threading

from .examples import examples
from .files import INDEX, file_of
from .marks import marks_of_text
from .orders import in_order
from .plays import HOW, Failed, play

JSON = "application/json"
TEXT = "text/plain; charset=utf-8"
# As many bytes as a script has at most, and room for its escapes.
MOST_BYTES = 2 * 67_108_864


@dataclass(frozen=True)
class Answer:
    """The status of an answer, the type of its body, and the body."""

    status: int
    type: str
    body: bytes


def refusal(status, why):
    """An answer that says why a request is refused."""
    return Answer(status, TEXT, f"{why}\n".encode("utf-8"))


def as_json(value):
    return Answer(200, JSON, json.dumps(value).encode("ascii"))


class Routes:
    """The answers about one program and the script that the page begins with."""

    def __init__(self, program, data, how):
        self.program, self.data, self.how = program, data, how
        # One play at a time has the memory of this machine.
        self.turn = threading.Lock()

    def get(self, name):
        """The answer to a request that only reads."""
        if name == "examples":
            return as_json(examples())
        if name == "start":
            script = None if self.data is None else self.data.decode("utf-8", "replace")
            return as_json({"script": script, "how": self.how})
        found = file_of(name or INDEX)
        return Answer(200, *found) if found else refusal(404, "there is no such page")

    def post(self, name, body):
        """The answer to a request with a script."""
        try:
            given = json.loads(body)
            data = given["script"].encode("utf-8", "replace")
            if name == "play":
                return self.played(data, given["how"])
            if name == "order":
                return as_json({"script": in_order(given["script"], json.loads(given["report"]))})
        except Failed as why:
            return refusal(500, str(why))
        except (ValueError, LookupError, TypeError, AttributeError):
            return refusal(400, "the body does not have what is needed")
        return as_json(marks_of_text(data)) if name == "marks" else refusal(404, "there is no such page")

    def played(self, data, how):
        """A line of JSON with the facts of a play, and then the report as the program wrote it."""
        if how not in HOW:
            return refusal(400, "a script is played by step or by run")
        with self.turn:
            done = play(self.program, data, how)
        return Answer(200, TEXT, json.dumps(done.facts).encode("ascii") + b"\n" + (done.report or b""))
