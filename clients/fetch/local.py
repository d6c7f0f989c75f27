"""Peers of the local network, by packets to all of it (BEP 14)."""

from __future__ import annotations

import contextlib
import secrets
import socket
import struct
import threading
import time
from collections.abc import Callable
from dataclasses import dataclass

from .blame import Address

GROUP, PORT = "239.192.152.143", 6771
EACH = 300.0  # seconds between two announces of a torrent
SHORTEST = 60.0  # the same, where another one is heard of
WAIT = 0.5  # seconds
LARGEST = 1400  # bytes of a packet
MOST_LINES = 40  # of a packet
MOST_HASHES = 20
MOST_HEARD = 20  # packets in a second that are read


@dataclass(eq=False)
class Announced:
    """A torrent, the port at which we listen, and who wants to hear of its peers."""

    infohash: bytes
    port: int
    on_peers: Callable[[list[Address]], None]
    said: float = -EACH


def spell(infohash: bytes, port: int, cookie: str) -> bytes:
    """A packet for one torrent."""
    lines = ("BT-SEARCH * HTTP/1.1", f"Host: {GROUP}:{PORT}", f"Port: {port}", f"Infohash: {infohash.hex()}", f"cookie: {cookie}", "", "", "")
    return "\r\n".join(lines).encode("ascii")


def read(packet: bytes, cookie: str) -> tuple[list[bytes], int]:
    """The infohashes of a packet and its port; nothing where it is nonsense, or our own by its cookie."""
    first, *lines = packet.decode("latin-1").split("\r\n")[:MOST_LINES]
    pairs = [(name.strip().lower(), value.strip()) for name, _, value in (line.partition(":") for line in lines)]
    ports = [int(value) for name, value in pairs if name == "port" and value.isascii() and value.isdigit() and len(value) <= 5]
    if not first.startswith("BT-SEARCH ") or ("cookie", cookie) in pairs or not ports or not 0 < ports[0] < 1 << 16:
        return [], 0
    hashes = []
    for name, value in pairs:
        if name == "infohash" and len(value) == 40:
            with contextlib.suppress(ValueError):
                hashes.append(bytes.fromhex(value))
    return [infohash for infohash in hashes if len(infohash) == 20][:MOST_HASHES], ports[0]


def open_socket(host: str) -> socket.socket:
    """A socket of the group, by the network that has this address of ours, or by any."""
    opened = socket.socket(socket.AF_INET, socket.SOCK_DGRAM)
    try:
        opened.setsockopt(socket.SOL_SOCKET, socket.SO_REUSEADDR, 1)
        opened.bind((GROUP, PORT))
        interface = socket.inet_aton(host or "0.0.0.0")
        opened.setsockopt(socket.IPPROTO_IP, socket.IP_ADD_MEMBERSHIP, struct.pack("4s4s", socket.inet_aton(GROUP), interface))
        opened.setsockopt(socket.IPPROTO_IP, socket.IP_MULTICAST_IF, interface)
        opened.settimeout(WAIT)
    except OSError:
        opened.close()
        raise
    return opened


class Local:
    """What is said to the local network, in a thread of its own. Raises OSError where the group can't be joined."""

    def __init__(self, host: str) -> None:
        self._socket = open_socket(host)
        self._cookie = secrets.token_hex(8)
        self._announced: list[Announced] = []
        self._lock = threading.Lock()
        self._is_closing = False
        self._second, self._heard = 0, 0
        self._thread = threading.Thread(target=self._run, name="local", daemon=True)
        self._thread.start()

    def add(self, infohash: bytes, port: int, on_peers: Callable[[list[Address]], None]) -> Announced:
        """Tells and hears of this torrent from now on. The thread calls `on_peers`."""
        announced = Announced(infohash, port, on_peers)
        with self._lock:
            self._announced.append(announced)
        return announced

    def remove(self, announced: Announced) -> None:
        """No more of it."""
        with self._lock, contextlib.suppress(ValueError):
            self._announced.remove(announced)

    def _run(self) -> None:
        while not self._is_closing:
            with contextlib.suppress(OSError):  # a wait that is over is one too
                packet, (host, _) = self._socket.recvfrom(LARGEST)
                self._hear(packet, host, time.monotonic())
            with self._lock:
                due = [announced for announced in self._announced if time.monotonic() - announced.said >= EACH]
            for announced in due:
                self._say(announced, time.monotonic())
        self._socket.close()

    def _say(self, announced: Announced, now: float) -> None:
        """Who doesn't listen has nothing to say."""
        announced.said = now
        if announced.port:
            with contextlib.suppress(OSError):
                self._socket.sendto(spell(announced.infohash, announced.port, self._cookie), (GROUP, PORT))

    def _hear(self, packet: bytes, host: str, now: float) -> None:
        """Somebody tells of torrents. Of those that are ours, the peer is taken, and told of us if it is time for it."""
        self._heard = self._heard + 1 if int(now) == self._second else 1
        self._second = int(now)
        if self._heard > MOST_HEARD:
            return
        hashes, port = read(packet, self._cookie)
        with self._lock:
            known = [announced for announced in self._announced if announced.infohash in hashes]
        for announced in known:
            announced.on_peers([(host, port)])
            if now - announced.said >= SHORTEST:
                self._say(announced, now)

    def close(self) -> None:
        """Ends."""
        self._is_closing = True
        self._thread.join()
