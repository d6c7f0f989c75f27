"""Small trackers on the loopback interface, by HTTP (BEP 3, BEP 23) and by UDP (BEP 15), each in a thread."""

from __future__ import annotations

import contextlib
import http.server
import socket
import ssl
import struct
import threading
from urllib.parse import parse_qs, urlsplit

from .webservers import Quiet


def compact(addresses: list[tuple[str, int]]) -> bytes:
    """Six bytes for each address."""
    return b"".join(socket.inet_aton(host) + struct.pack(">H", port) for host, port in addresses)


class HttpTracker:
    """Tells each peer the others of its torrent, and keeps what it was told. `reply` stands for all that where it isn't empty."""

    def __init__(
        self, reply: bytes = b"", status: int = 200, host: str = "127.0.0.1", shortest: int = 60, context: ssl.SSLContext | None = None
    ) -> None:
        self.reply, self.status, self.shortest = reply, status, shortest
        self.announces: list[dict[str, str]] = []
        self.only: tuple[str, int] | None = None  # where nobody else is named
        self.peers: dict[str, dict[str, tuple[str, int]]] = {}
        tracker = self

        class Handler(http.server.BaseHTTPRequestHandler):
            """Answers one announce."""

            def do_GET(self) -> None:
                if urlsplit(self.path).path != "/announce":
                    self.send_error(404)
                    return
                query = parse_qs(urlsplit(self.path).query, encoding="latin-1")
                body = tracker.answer({name: values[0] for name, values in query.items()}, self.client_address[0])
                self.send_response(tracker.status)
                self.send_header("Content-Length", str(len(body)))
                self.end_headers()
                self.wfile.write(body)

            def log_message(self, format: str, *arguments: object) -> None:
                """Nothing is logged."""

        self.server = Quiet((host, 0), Handler)
        self.url = f"{self.server.secure(context)}://{host}:{self.server.server_address[1]}/announce"
        threading.Thread(target=self.server.serve_forever, args=[0.05], daemon=True).start()

    def answer(self, told: dict[str, str], host: str) -> bytes:
        """Keeps what was told; the answer."""
        self.announces.append(told)
        if self.reply:
            return self.reply
        peers = self.peers.setdefault(told["info_hash"], {})
        named = [address for peer_id, address in peers.items() if peer_id != told["peer_id"]]
        others = compact([address for address in named if self.only in (None, address)])
        if told.get("event") == "stopped":
            peers.pop(told["peer_id"], None)
        else:
            peers[told["peer_id"]] = (host, int(told["port"]))
        return b"d8:completei1e10:incompletei2e8:intervali1800e12:min intervali%de5:peers%d:%se" % (self.shortest, len(others), others)

    def close(self) -> None:
        """No more announces."""
        self.server.shutdown()
        self.server.server_close()


class UdpTracker:
    """Takes announces by the numbers of BEP 15. It drops the first packets, and sends one of another transaction before each answer."""

    def __init__(self, peers: list[tuple[str, int]], drops: int = 0, error: bytes = b"") -> None:
        self.peers, self.drops, self.error = peers, drops, error
        self.announces: list[tuple[int, ...]] = []
        self.infohashes: list[bytes] = []
        self.connects = 0
        self.socket = socket.socket(socket.AF_INET, socket.SOCK_DGRAM)
        self.socket.bind(("127.0.0.1", 0))
        self.url = f"udp://127.0.0.1:{self.socket.getsockname()[1]}/announce"
        threading.Thread(target=self._run, daemon=True).start()

    def _run(self) -> None:
        with contextlib.suppress(OSError):
            while True:
                packet, address = self.socket.recvfrom(2048)
                if self.drops > 0:
                    self.drops -= 1
                    continue
                answer = self.answer(packet)
                stray = struct.pack(">II", 1, struct.unpack(">I", packet[12:16])[0] ^ 1) + bytes(12)
                self.socket.sendto(stray, address)
                self.socket.sendto(answer, address)

    def answer(self, packet: bytes) -> bytes:
        """The answer to a packet."""
        head, action, transaction = struct.unpack(">QII", packet[:16])
        if action == 0 and head == 0x41727101980 and len(packet) == 16:
            self.connects += 1
            return struct.pack(">IIQ", 0, transaction, 0x1122334455667788)
        if self.error or action != 1 or head != 0x1122334455667788 or len(packet) != 98:
            return struct.pack(">II", 3, transaction) + (self.error or b"wrong packet")
        self.infohashes.append(packet[16:36])
        self.announces.append(struct.unpack(">QQQIIIiH", packet[56:98]))
        return struct.pack(">IIIII", 1, transaction, 1800, 2, 1) + compact(self.peers)

    def close(self) -> None:
        """No more packets."""
        self.socket.close()
