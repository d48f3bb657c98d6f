"""A server of the page for this machine alone: each request needs the token of the address, and the address as its host.

The token stands in the path of the address, so that the addresses of the page's files need not name it.
"""
from hmac import compare_digest
from http.server import BaseHTTPRequestHandler, ThreadingHTTPServer
import secrets
import sys

from .routes import JSON, MOST_BYTES, Routes, refusal

HOST = "127.0.0.1"
POLICY = "; ".join((
    "default-src 'none'", "script-src 'self'", "style-src 'self'", "connect-src 'self'", "img-src data:", "base-uri 'none'",
    "form-action 'none'", "frame-ancestors 'none'",
))
HEADERS = {
    "Content-Security-Policy": POLICY,
    "X-Content-Type-Options": "nosniff",
    "Referrer-Policy": "no-referrer",
    "Cross-Origin-Resource-Policy": "same-origin",
    "Cache-Control": "no-store",
}
SECONDS_OF_SILENCE = 60


class Handler(BaseHTTPRequestHandler):
    """One request."""

    server_version, sys_version = "page", ""
    timeout = SECONDS_OF_SILENCE

    def do_GET(self):
        self.answer(self.refused() or self.server.routes.get(self.name()))

    def do_POST(self):
        self.answer(self.refused() or self.posted())

    def posted(self):
        """The answer to a request with a body, or why the body is not read."""
        if self.headers.get_content_type() != JSON:
            return refusal(415, "the body is not JSON")
        length = self.headers.get("Content-Length", "")
        if not length.isdecimal():
            return refusal(411, "the length is missing")
        if int(length) > MOST_BYTES:
            return refusal(413, "the script is too large")
        return self.server.routes.post(self.name(), self.rfile.read(int(length)))

    def refused(self):
        """Why a request is refused before it is looked at, or None: a page from elsewhere has another host, origin or no token."""
        origin = self.headers.get("Origin")
        if self.headers.get("Host") != self.server.host or origin not in (None, f"http://{self.server.host}"):
            return refusal(403, "another host or origin is named")
        parts = self.path.split("/", 2)
        if len(parts) < 3 or not compare_digest(parts[1].encode("utf-8"), self.server.token.encode("ascii")):
            return refusal(403, "the address has no token, or another one")
        return None

    def name(self):
        """What stands after the token."""
        return self.path.split("/", 2)[2]

    def answer(self, answer):
        self.send_response(answer.status)
        for name, value in HEADERS.items():
            self.send_header(name, value)
        self.send_header("Content-Type", answer.type)
        self.send_header("Content-Length", str(len(answer.body)))
        self.end_headers()
        try:
            self.wfile.write(answer.body)
        except ConnectionError:
            # The page was closed, or has asked for another play.
            self.close_connection = True

    def log_message(self, *words):
        """Nothing is logged: the terminal has the address alone."""


class Server(ThreadingHTTPServer):
    """The page of a program, at an address of its own."""

    daemon_threads = True

    def __init__(self, program, data, how, port=0):
        super().__init__((HOST, port), Handler)
        self.routes = Routes(program, data, how)
        self.token = secrets.token_urlsafe(24)
        self.host = f"{HOST}:{self.server_address[1]}"

    @property
    def address(self):
        return f"http://{self.host}/{self.token}/"

    def handle_error(self, request, client_address):
        """A connection that breaks is no error of the server; what is one is shown."""
        if not isinstance(sys.exc_info()[1], (ConnectionError, TimeoutError)):
            super().handle_error(request, client_address)
