"""The server of the workbench: one page on 127.0.0.1, for who has the run's key.

All paths begin with the key. GET gives the page and its pieces, from a list and from nowhere else;
POST takes JSON and gives JSON, or a stream. A request with another key, Host or Origin, or from
another site's page, is refused before anything of it is read.
"""
import hmac
import http.server
import json
import os
import re
import secrets
import select
import socket
import sys

from workbench_parts.acts import ACTS
from workbench_parts.models import TOP
from workbench_parts.refused import Refused

TOOLS = os.path.join(TOP, "tools")
PAGE = os.path.join(TOOLS, "workbench_parts", "page")
GRAMMAR = os.path.join(TOOLS, "editors", "vscode", "syntaxes", "brasil.tmLanguage.json")
VIEWER = os.path.join(TOOLS, "view.html")
MOST_BODY = 1 << 27

HEADS = {
    "Cache-Control": "no-store", "Referrer-Policy": "no-referrer",
    "X-Content-Type-Options": "nosniff", "Cross-Origin-Resource-Policy": "same-origin",
    "Cross-Origin-Opener-Policy": "same-origin",
}
# The page runs its own files alone; the viewer has its script within, and asks for nothing.
POLICY = ("default-src 'none'; script-src 'self'; style-src 'self'; connect-src 'self'; "
          "frame-src 'self'; base-uri 'none'; form-action 'none'; frame-ancestors 'none'")
VIEWER_POLICY = ("default-src 'none'; style-src 'unsafe-inline'; script-src 'unsafe-inline'; "
                 "base-uri 'none'; form-action 'none'; frame-ancestors 'self'")


def pieces():
    """To each name that GET answers its file, its type and its policy."""
    kinds = {".html": "text/html", ".css": "text/css", ".js": "text/javascript"}
    found = {name: (os.path.join(PAGE, name), kinds[os.path.splitext(name)[1]], POLICY)
             for name in os.listdir(PAGE)}
    found[""] = found.pop("page.html")
    found["view.html"] = VIEWER, "text/html", VIEWER_POLICY
    found["grammar.json"] = GRAMMAR, "application/json", POLICY
    return found


class Server(http.server.ThreadingHTTPServer):
    """Listens on 127.0.0.1 alone."""

    daemon_threads = True

    def __init__(self, bench, port=0):
        super().__init__(("127.0.0.1", port), Handler)
        self.bench, self.pieces = bench, pieces()
        self.host = f"127.0.0.1:{self.server_address[1]}"
        self.origin = f"http://{self.host}"
        self.address = f"{self.origin}/{bench.key}/"
        # The words of a process can be read by others: the browser is started with a key that
        # leads to the page once.
        self.once = secrets.token_urlsafe(24)
        self.opening = f"{self.origin}/{self.once}/"
        bench.when_over = self.shutdown

    def takes(self, key):
        """Whether this is the key that is good for once; then it is so no more."""
        with self.bench.lock:
            is_it = hmac.compare_digest(key.encode(), self.once.encode())
            if is_it:
                self.once = secrets.token_urlsafe(24)
        return is_it

    def handle_error(self, request, client_address):
        """A page that went away within an answer is no error; all else is shown."""
        kind = sys.exc_info()[0]
        if not issubclass(kind, (ConnectionError, TimeoutError)):
            super().handle_error(request, client_address)


class Handler(http.server.BaseHTTPRequestHandler):
    """Answers one connection's requests."""

    protocol_version = "HTTP/1.1"
    server_version, sys_version = "workbench", ""
    timeout = 120

    def log_message(self, *_):
        pass

    def do_GET(self):
        self.guarded(self.give)

    def do_POST(self):
        self.guarded(self.act)

    # ---- Who may ask. ----

    def guarded(self, answer):
        self.is_streaming = False
        try:
            name = self.guard()
            self.server.bench.asked()
            answer(name)
        except Refused as refused:
            # What was not read of the request must not be taken for the next one.
            self.close_connection = True
            if not self.is_streaming:
                self.tell({"error": str(refused)}, refused.status)

    def guard(self):
        """The name that is asked for, of a request that may ask; None of the browser's first."""
        origin = self.headers.get_all("Origin", [])
        if self.headers.get_all("Host") != [self.server.host]:
            raise Refused(403, "another Host")
        if origin != [self.server.origin] and (origin or self.command == "POST"):
            raise Refused(403, "another Origin")
        if self.headers.get("Sec-Fetch-Site", "none") not in ("same-origin", "none"):
            raise Refused(403, "another site")
        key, slash, name = self.path[1:].partition("/")
        if slash and hmac.compare_digest(key.encode(), self.server.bench.key.encode()):
            return name
        if slash and not name and self.command == "GET" and self.server.takes(key):
            return None
        raise Refused(403, "another key")

    def body(self):
        """The object of JSON that the request brings."""
        length = self.headers.get("Content-Length", "")
        if not re.fullmatch("[0-9]{1,12}", length) or "Transfer-Encoding" in self.headers:
            raise Refused(411, "the request has no length")
        if int(length) > MOST_BODY:
            raise Refused(413, f"the request is longer than {MOST_BODY} bytes")
        if self.headers.get("Content-Type") != "application/json":
            raise Refused(415, "the request is no JSON")
        content = self.rfile.read(int(length))
        try:
            body = json.loads(content)
        except (ValueError, RecursionError):
            raise Refused(400, "the request is no JSON") from None
        if not isinstance(body, dict):
            raise Refused(400, "the request is no object")
        return body

    # ---- How answers are given. ----

    def head(self, status, kind, policy=POLICY, **more):
        self.send_response(status)
        for name, value in {**HEADS, "Content-Type": f"{kind}; charset=utf-8",
                            "Content-Security-Policy": policy, **more}.items():
            self.send_header(name, value)
        if self.close_connection:
            self.send_header("Connection", "close")
        self.end_headers()

    def tell(self, answer, status=200):
        content = json.dumps(answer).encode()
        self.head(status, "application/json", **{"Content-Length": str(len(content))})
        self.wfile.write(content)

    def stream(self, **more):
        """Begins an answer of pieces, each of which `send` sends."""
        self.is_streaming = True
        self.connection.settimeout(self.server.bench.seconds)
        self.head(200, "application/octet-stream", **{"Transfer-Encoding": "chunked", **more})

    def send(self, piece):
        self.wfile.write(b"%x\r\n%b\r\n" % (len(piece), piece))

    def is_there(self):
        """Whether who asked still listens."""
        if not select.select([self.connection], [], [], 0)[0]:
            return True
        try:
            return self.connection.recv(1, socket.MSG_PEEK) != b""
        except OSError:
            return False

    def give(self, name):
        if name is None:
            self.head(303, "text/plain", Location=self.server.address, **{"Content-Length": "0"})
            return
        if name not in self.server.pieces:
            raise Refused(404, "there is no such piece")
        path, kind, policy = self.server.pieces[name]
        with open(path, "rb") as file:
            content = file.read()
        self.head(200, kind, policy, **{"Content-Length": str(len(content))})
        self.wfile.write(content)

    # ---- What is asked for. ----

    def act(self, name):
        if name not in ACTS:
            raise Refused(404, "there is no such act")
        ACTS[name](self, self.server.bench, self.body())
