"""A web server on the loopback interface that has files, with ranges as RFC 9110 has them, or behaves badly. It may speak HTTPS."""

from __future__ import annotations

import contextlib
import http.server
import re
import select
import ssl
import threading
import time

CHUNK = 1 << 18
SHORT = 100  # bytes of a body that is sent at once in any case
LONGEST_WAIT = 20.0  # seconds for a request that comes ahead


class Quiet(http.server.ThreadingHTTPServer):
    """A server that doesn't mind who goes away."""

    daemon_threads = True

    def handle_error(self, request: object, client_address: object) -> None:
        """Nothing is said."""

    def secure(self, context: ssl.SSLContext | None) -> str:
        """Speaks HTTPS, where there is a context; how its addresses begin. Each connection's own thread takes the handshake."""
        if context is None:
            return "http"
        self.socket = context.wrap_socket(self.socket, server_side=True, do_handshake_on_connect=False)
        return "https"


class WebServer:
    """Gives these files by their paths. `lies` says how it misbehaves."""

    def __init__(
        self, files: dict[str, bytes], lies: str = "", host: str = "127.0.0.1", with_query: bool = True, rate: float = 0.0,
        context: ssl.SSLContext | None = None,
    ) -> None:
        self.files, self.lies, self.with_query = files, lies, with_query
        self.rate = rate  # bytes a second of all connections; 0 is no limit
        self._due = 0.0  # when the next bytes may be sent
        self._lock = threading.Lock()
        self.requests: list[tuple[str, str]] = []  # the path and the range of each
        self.connections = 0
        self.was_ahead = False  # whether a request came while the answer before it was sent
        server = self

        class Handler(http.server.BaseHTTPRequestHandler):
            """Answers one client."""

            protocol_version = "HTTP/1.1"

            def setup(self) -> None:
                server.connections += 1
                super().setup()

            def do_GET(self) -> None:
                server.requests.append((self.path, self.headers.get("Range", "")))
                with contextlib.suppress(OSError):
                    server.answer(self)

            def log_message(self, format: str, *arguments: object) -> None:
                """Nothing is logged."""

        self.server = Quiet((host, 0), Handler)
        self.url = f"{self.server.secure(context)}://{host}:{self.server.server_address[1]}/"
        threading.Thread(target=self.server.serve_forever, args=[0.05], daemon=True).start()

    def answer(self, handler: http.server.BaseHTTPRequestHandler) -> None:
        """One answer."""
        if self.lies == "loop" or handler.path.startswith("/moved/"):
            handler.send_response(302)
            handler.send_header("Location", handler.path + "x" if self.lies == "loop" else handler.path.removeprefix("/moved"))
            handler.send_header("Content-Length", "0")
            handler.end_headers()
            return
        content = self.files.get(handler.path if self.with_query else handler.path.partition("?")[0])
        if content is None:
            handler.send_error(404)
            return
        found = re.fullmatch(r"bytes=(\d+)-(\d+)", handler.headers.get("Range", ""))
        if self.lies == "endless":
            self.flood(handler)
        elif not found or self.lies == "no ranges":
            self.send(handler, 200, content, {})
        else:
            self.send_part(handler, content, int(found[1]), int(found[2]))

    def send_part(self, handler: http.server.BaseHTTPRequestHandler, content: bytes, first: int, last: int) -> None:
        """A range, right or wrong."""
        part = content[first : last + 1]
        told = f"bytes {first + (self.lies == 'shifted')}-{last}/{len(content) + (self.lies == 'other length')}"
        if self.lies == "wrong":
            part = bytes(len(part))
        headers = {"Content-Range": told} | ({"Content-Encoding": "gzip"} if self.lies == "packed" else {})
        self.send(handler, 206, part[: len(part) // 2] if self.lies == "short" else part, headers)

    def send(self, handler: http.server.BaseHTTPRequestHandler, status: int, body: bytes, headers: dict[str, str]) -> None:
        """A whole answer."""
        handler.send_response(status)
        handler.send_header("Content-Length", str(len(body)))
        for name, value in headers.items():
            handler.send_header(name, value)
        handler.end_headers()
        view = memoryview(body)
        if self.lies in ("waiting", "hasty") and len(body) > SHORT and not self.was_ahead:
            handler.wfile.write(view[: 2 * len(view) // 3])
            view = view[2 * len(view) // 3 :]
            self.was_ahead = bool(select.select([handler.connection], [], [], LONGEST_WAIT)[0])
            if self.was_ahead and self.lies == "hasty":
                handler.close_connection = True
                return
        while view:
            self.wait_for(min(CHUNK, len(view)))
            handler.wfile.write(view[:CHUNK])
            view = view[CHUNK:]

    def wait_for(self, count: int) -> None:
        """Waits until so many bytes may be sent."""
        if not self.rate:
            return
        with self._lock:
            begin = max(self._due, time.monotonic())
            self._due = begin + count / self.rate
        time.sleep(max(0.0, begin - time.monotonic()))

    @staticmethod
    def flood(handler: http.server.BaseHTTPRequestHandler) -> None:
        """A body without end."""
        handler.send_response(200)
        handler.end_headers()
        while True:
            handler.wfile.write(bytes(1 << 16))

    def close(self) -> None:
        """No more requests."""
        self.server.shutdown()
        self.server.server_close()
