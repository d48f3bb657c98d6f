"""A server of the page for a test, and requests to it."""
import contextlib
import http.client
import json
import threading
from typing import NamedTuple
from urllib.parse import urlsplit

from paging.server import Server


class Reply(NamedTuple):
    """What a request was answered."""

    status: int
    headers: dict
    body: bytes


@contextlib.contextmanager
def serving(program, data=None, how="step"):
    """A server in a thread of its own."""
    with Server(program, data, how) as server:
        thread = threading.Thread(target=server.serve_forever, daemon=True)
        thread.start()
        try:
            yield server
        finally:
            server.shutdown()
            thread.join()


def request(server, method, path, body=None, **headers):
    """Makes a request of this path, which begins with a slash, with headers whose names have _ for -."""
    connection = http.client.HTTPConnection(urlsplit(server.address).netloc, timeout=120)
    try:
        connection.putrequest(method, path, skip_host="Host" in headers)
        for name, value in headers.items():
            connection.putheader(name.replace("_", "-"), value)
        if body is not None:
            connection.putheader("Content-Length", str(len(body)))
        connection.endheaders(body)
        answer = connection.getresponse()
        return Reply(answer.status, dict(answer.getheaders()), answer.read())
    finally:
        connection.close()


def get(server, name, **headers):
    """Asks for a part of the page."""
    return request(server, "GET", f"/{server.token}/{name}", **headers)


def post(server, name, value, **headers):
    """Sends JSON to the page."""
    given = {"Content_Type": "application/json", **headers}
    return request(server, "POST", f"/{server.token}/{name}", json.dumps(value).encode("ascii"), **given)


def played(server, script, how="step"):
    """The facts and the bytes of the report of a play."""
    reply = post(server, "play", {"script": script, "how": how})
    facts, _, report = reply.body.partition(b"\n")
    return reply.status, json.loads(facts) if reply.status == 200 else {}, report
