"""The server of the page, on the loopback address alone, under a path that has a token."""
from __future__ import annotations

import contextlib
import hmac
import io
import json
import secrets
import socket
import threading
import time
from collections.abc import Callable
from concurrent.futures import ThreadPoolExecutor
from http.server import BaseHTTPRequestHandler, HTTPServer
from pathlib import Path
from typing import Any
from urllib.parse import parse_qsl, urlsplit

from ..commands import Folder, Which
from ..errors import Error, Locked
from ..program import find
from . import coasts
from .answers import Viewer
from .folder import Shown

_HERE = Path(__file__).parent
_FILES = {"": ("page.html", "text/html; charset=utf-8"), "page.css": ("page.css", "text/css; charset=utf-8"),
          "plane.js": ("plane.js", "text/javascript; charset=utf-8"),
          "page.js": ("page.js", "text/javascript; charset=utf-8"),
          "panel.js": ("panel.js", "text/javascript; charset=utf-8"),
          "input.js": ("input.js", "text/javascript; charset=utf-8")}
# bytes of a body, seconds that a request may take to come and an answer to go, requests that are answered beside each
# other (with the server's own thread and the caller's there are eight at most), and that wait
_LONGEST = 1 << 18
_SECONDS = 5.0
_THREADS = 6
_WAITING = 32
_POLICY = "default-src 'self'; frame-ancestors 'none'"


class _Timed(io.RawIOBase):
    """What comes from a socket, all of it within some seconds."""

    def __init__(self, connection: socket.socket, seconds: float) -> None:
        self._connection = connection
        self._until = time.monotonic() + seconds

    def readable(self) -> bool:
        return True

    def readinto(self, buffer: Any) -> int:
        left = self._until - time.monotonic()
        if left <= 0:
            raise TimeoutError
        self._connection.settimeout(left)
        try:
            return self._connection.recv_into(buffer)
        finally:
            self._connection.settimeout(_SECONDS)


class _Handler(BaseHTTPRequestHandler):
    """One request, of the page or of its questions. What is wrong with it is answered by 400 and a line."""

    server: Server
    server_version, sys_version = "bkd", ""

    def setup(self) -> None:
        super().setup()
        self.rfile = io.BufferedReader(_Timed(self.connection, _SECONDS))

    def do_GET(self) -> None:
        path = urlsplit(self.path)
        name = self._name(path.path)
        viewer = self.server.viewer
        if name is None:
            return
        if name in _FILES:
            file, kind = _FILES[name]
            self._reply(200, (_HERE / file).read_bytes(), kind)
        elif name == "mark":
            self._answer(lambda: {"mark": viewer.shown.mark()})
        elif name == "about":
            self._answer(lambda: viewer.shown.about() | {"degrees": self.server.degrees})
        elif name == "view":
            self._answer(lambda: viewer.view(dict(parse_qsl(path.query))))
        elif name == "check":
            self._answer(viewer.shown.check)
        elif name == "coasts":
            self._answer(coasts.told)
        else:
            self._tell(404, "no such page")

    def do_POST(self) -> None:
        name = self._name(urlsplit(self.path).path)
        if name is None:
            return
        if name == "check":
            self._answer(self.server.viewer.shown.begin_check)
        elif name == "ask":
            self._answer(lambda: self.server.viewer.ask(self._body()))
        else:
            self._tell(404, "no such page")

    def _name(self, path: str) -> str | None:
        """What is asked for, under the token; None where that was answered as wrong."""
        port = self.server.server_address[1]
        _, token, *names = [*path.split("/", 2), ""][:3]
        if self.headers.get("Host") not in (f"127.0.0.1:{port}", f"localhost:{port}"):
            self._tell(403, "another host")
        elif not hmac.compare_digest(token.encode(), self.server.token.encode()):
            self._tell(403, "the address lacks its token")
        else:
            return names[0] if names else ""
        return None

    def _body(self) -> dict[str, Any]:
        """The object that a request's body spells. What isn't one raises ValueError."""
        if self.headers.get_content_type() != "application/json":
            raise ValueError("the body's type is not application/json")
        length = self.headers.get("Content-Length", "")
        if not length.isascii() or not length.isdigit() or not 0 < int(length) <= _LONGEST:
            raise ValueError(f"the body has not 1 to {_LONGEST} bytes")
        try:
            text = self.rfile.read(int(length))
        except TimeoutError:
            raise ValueError(f"the body didn't come within {_SECONDS:.0f} seconds") from None
        if len(text) < int(length):
            raise ValueError("the body ends early")
        try:
            told = json.loads(text)
        except (ValueError, RecursionError):
            raise ValueError("the body is not JSON") from None
        if not isinstance(told, dict):
            raise ValueError("the body is not an object")
        return told

    def _answer(self, work: Callable[[], dict[str, Any]]) -> None:
        try:
            self._reply(200, json.dumps(work()).encode())
        except Locked:
            self._tell(409, "another process writes; what is shown is what was stored before")
        except (Error, ValueError, OverflowError) as error:
            self._tell(400, str(error))
        except OSError as error:
            self._tell(400, f"{error.filename or 'the folder'}: {error.strerror}")

    def _tell(self, status: int, line: str) -> None:
        self._reply(status, json.dumps({"error": line}).encode())

    def _reply(self, status: int, body: bytes, kind: str = "application/json") -> None:
        self.request_version = "HTTP/1.0"  # so that a request without a version gets a status too
        self.send_response(status)
        for name, value in (("Content-Type", kind), ("Content-Length", str(len(body))), ("Cache-Control", "no-store"),
                            ("Content-Security-Policy", _POLICY), ("X-Content-Type-Options", "nosniff"),
                            ("Referrer-Policy", "no-referrer"), ("Connection", "close")):
            self.send_header(name, value)
        self.end_headers()
        self.wfile.write(body)

    def send_error(self, code: int, message: str | None = None, explain: str | None = None) -> None:
        """What the request's own lines lack, by 400 and a line."""
        self.close_connection = True
        self._tell(400, message or "a bad request")

    def log_message(self, form: str, *words: Any) -> None:
        """Says nothing of requests."""


class Server(HTTPServer):
    """The server of a viewer's page. `url` is its only address."""

    allow_reuse_address = True
    request_queue_size = _WAITING

    def __init__(self, port: int, viewer: Viewer, degrees: bool | None) -> None:
        self.viewer = viewer
        self.degrees = degrees
        self.token = secrets.token_urlsafe(16)
        super().__init__(("127.0.0.1", port), _Handler)
        self._threads = ThreadPoolExecutor(_THREADS)
        self._room = threading.Semaphore(_THREADS + _WAITING)

    @property
    def url(self) -> str:
        """The page's address, which nobody else knows."""
        return f"http://127.0.0.1:{self.server_address[1]}/{self.token}/"

    def process_request(self, request: Any, address: Any) -> None:
        """Has one of the threads answer; what comes while as many wait as may is closed."""
        if not self._room.acquire(blocking=False):
            self.shutdown_request(request)
            return
        try:
            self._threads.submit(self._one, request, address)
        except RuntimeError:  # the server is being closed
            self.shutdown_request(request)

    def _one(self, request: Any, address: Any) -> None:
        try:
            # a browser that went away is no fault of anybody's
            with contextlib.suppress(OSError):
                self.finish_request(request, address)
        finally:
            self.shutdown_request(request)
            self._room.release()

    def server_close(self) -> None:
        """Ends what runs for the page, and the threads."""
        super().server_close()
        self.viewer.shown.close()
        self._threads.shutdown(wait=False, cancel_futures=True)


def serve(folder: Folder, port: int = 8765, *, program: Which = None, degrees: bool | None = None) -> Server:
    """A server for the page of a folder on 127.0.0.1; `serve_forever` runs it, `url` is where it is. Port 0 takes a
    free one.

    `degrees` says that coordinates are degrees at 10^-7; where it is None the page guesses. Raises `NoIndex` or
    `Damaged` where there is nothing to show, `Locked` where another process writes, OSError where the port is taken.
    """
    shown = Shown(str(folder), find(program))
    shown.about()
    return Server(port, Viewer(shown), degrees)
