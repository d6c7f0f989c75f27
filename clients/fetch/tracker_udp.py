"""Trackers that are asked by UDP (BEP 15)."""

from __future__ import annotations

import secrets
import socket
import struct
import time
from urllib.parse import urlsplit

from .tracker import Announce, Event, Told, TrackerFault, bounded, compact_peers

MAGIC = 0x41727101980
CONNECT, ANNOUNCE, _SCRAPE, ERROR = range(4)
EVENTS = {Event.NONE: 0, Event.COMPLETED: 1, Event.STARTED: 2, Event.STOPPED: 3}
FIRST_WAIT = 15.0  # seconds until a packet is sent again; it doubles each time
TRIES = 3
VALID = 60.0  # seconds that a connection's number is good for
LARGEST = 1 << 16


class Talk:
    """One exchange with a tracker. Packets that aren't answered are sent again, after longer and longer waits."""

    def __init__(self, url: str, first_wait: float, tries: int, source: str) -> None:
        parts = urlsplit(url)
        if not parts.hostname or not parts.port:
            raise TrackerFault("the tracker's address has no host or no port")
        self.waits = [first_wait * 2**number for number in range(tries)]
        try:
            family, kind, protocol, _, address = socket.getaddrinfo(parts.hostname, parts.port, type=socket.SOCK_DGRAM)[0]
            self.socket = socket.socket(family, kind, protocol)
            if source:
                self.socket.bind((source, 0))
            self.socket.connect(address)
        except OSError as error:
            raise TrackerFault(f"the tracker can't be reached: {error}") from error
        self.address_length = 16 if family == socket.AF_INET6 else 4
        self.connection: tuple[int, float] | None = None

    def _exchange(self, action: int, head: int, rest: bytes, wait: float) -> bytes | None:
        """Sends a packet; what stands behind the number of its answer, or None where none came in time. Raises TrackerFault at a refusal."""
        transaction = secrets.randbits(32)
        self.socket.send(struct.pack(">QII", head, action, transaction) + rest)
        end = time.monotonic() + wait
        while (left := end - time.monotonic()) > 0:
            self.socket.settimeout(left)
            try:
                answer = self.socket.recv(LARGEST)
            except TimeoutError:
                return None
            if len(answer) < 8:
                continue
            kind, number = struct.unpack_from(">II", answer)
            if number != transaction:
                continue
            if kind == ERROR:
                raise TrackerFault(f"the tracker refuses: {answer[8:].decode('utf-8', 'replace')}")
            if kind == action:
                return answer[8:]
        return None

    def ask(self, packet: bytes) -> bytes:
        """Announces; what the tracker answers."""
        try:
            for wait in self.waits:
                if self.connection is None or time.monotonic() - self.connection[1] > VALID:
                    answer = self._exchange(CONNECT, MAGIC, b"", wait)
                    if answer is None or len(answer) < 8:
                        continue
                    self.connection = (int.from_bytes(answer[:8], "big"), time.monotonic())
                answer = self._exchange(ANNOUNCE, self.connection[0], packet, wait)
                if answer is not None and len(answer) >= 12:
                    return answer
        except OSError as error:
            raise TrackerFault(f"the tracker can't be reached: {error}") from error
        raise TrackerFault("the tracker doesn't answer")


def announce(url: str, request: Announce, first_wait: float = FIRST_WAIT, tries: int = TRIES, source: str = "") -> Told:
    """Tells the tracker, and gives its answer. Raises TrackerFault."""
    talk = Talk(url, first_wait, tries, source)
    packet = request.infohash + request.peer_id + struct.pack(
        ">QQQIIIiH", request.downloaded, request.left, request.uploaded, EVENTS[request.event], 0, request.key, request.wanted, request.port
    )  # fmt: skip
    with talk.socket:
        answer = talk.ask(packet)
    interval, leechers, seeders = struct.unpack_from(">III", answer)
    return Told(bounded(interval), bounded(interval), compact_peers(answer[12:], talk.address_length), seeders, leechers)
